//! Stand-in: no simplification. No kept answer simplifies.
use super::Expression;

pub fn run(expression: &Expression) -> Expression {
    expression.clone()
}
