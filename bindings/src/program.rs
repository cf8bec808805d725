use crate::{Extern, FrameOperator, Instruction, Kind, Node, Parameter, Region, Tables, UnresolvedCallArgument};
use std::vec::Vec;

/// Six tables that grow. It keeps count of the rows of parameters, nodes and arguments; what is allowed is looked at by
/// the calls, not here.
///
/// ```
/// use mugwortlatch::{check, Instruction, Kind, MemoryReference, Program, Region};
///
/// let mut program = Program::new();
/// program.region(Region { name: 1, kind: Kind::Octet, length: 1 });
/// program.instruction(Instruction::Move { destination: MemoryReference { name: 1, index: 0 }, source: 200.into() });
/// assert_eq!(check(&program.tables()), Ok(()));
/// ```
#[derive(Clone, Debug, Default, PartialEq, Eq)]
pub struct Program {
    regions: Vec<u64>,
    externs: Vec<u64>,
    parameters: Vec<u64>,
    nodes: Vec<u64>,
    arguments: Vec<u64>,
    instructions: Vec<u64>,
}

impl Program {
    /// A program without rows.
    pub fn new() -> Program {
        Program::default()
    }

    /// The tables, lent.
    pub fn tables(&self) -> Tables<'_> {
        Tables {
            regions: &self.regions,
            externs: &self.externs,
            parameters: &self.parameters,
            nodes: &self.nodes,
            arguments: &self.arguments,
            instructions: &self.instructions,
        }
    }

    /// Declares a region. Gives its row.
    pub fn region(&mut self, region: Region) -> u64 {
        add(&mut self.regions, [region.row()])
    }

    /// Declares an extern routine with its parameters. Gives its row.
    pub fn extern_routine(&mut self, name: u64, return_kind: Option<Kind>, parameters: &[Parameter]) -> u64 {
        let parameter_count = parameters.len() as u64;
        let first_parameter = add(&mut self.parameters, parameters.iter().map(|parameter| parameter.row()));
        add(&mut self.externs, [Extern { name, return_kind, first_parameter, parameter_count }.row()])
    }

    /// Adds an instruction. Gives its row.
    pub fn instruction(&mut self, instruction: Instruction) -> u64 {
        add(&mut self.instructions, [instruction.row()])
    }

    /// Adds a CALL of that extern with its arguments, the return's first. Gives its row.
    pub fn call(&mut self, name: u64, arguments: &[UnresolvedCallArgument]) -> u64 {
        let argument_count = arguments.len() as u64;
        let first_argument = add(&mut self.arguments, arguments.iter().map(|argument| argument.row()));
        self.instruction(Instruction::Call { name, first_argument, argument_count })
    }

    /// Adds a frame instruction with its expression's nodes. Gives its row.
    pub fn frame(&mut self, operator: FrameOperator, nodes: &[Node]) -> u64 {
        let node_count = nodes.len() as u64;
        let first_node = add(&mut self.nodes, nodes.iter().map(|node| node.row()));
        self.instruction(Instruction::Frame { operator, first_node, node_count })
    }
}

/// Adds rows to a table. Gives the first's.
fn add<const WIDTH: usize>(table: &mut Vec<u64>, rows: impl IntoIterator<Item = [u64; WIDTH]>) -> u64 {
    let first = table.len() / WIDTH;
    table.extend(rows.into_iter().flatten());
    first as u64
}
