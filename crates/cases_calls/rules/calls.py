"""A CALL's resolved arguments or its argument errors, and its access sets."""
from .outcome import Refused
from .tables import *

UNDECLARED, VECTOR_MISMATCH, SCALAR_MISMATCH, VECTOR_ARGUMENT, RETURN_ARGUMENT, IMMEDIATE_FOR_MUTABLE = range(1, 7)
ERROR_WORDS, DETAILS = 7, 4


class Vector(NamedTuple):
    name: int
    kind: int
    length: int
    mutable: int

    def words(self):
        return [0, self.name, self.kind, self.length, self.mutable]


class Scalar(NamedTuple):
    name: int
    index: int
    kind: int
    mutable: int

    def words(self):
        return [1, self.name, self.index, self.kind, self.mutable]


class Immediate(NamedTuple):
    real: int
    imaginary: int
    kind: int
    mutable: int = 0

    def words(self):
        return [2, self.real, self.imaginary, self.kind, 0]


class Failed(NamedTuple):
    """One of the six errors, with its details."""
    error: int
    details: tuple


def scalar(regions, argument, kind, mutable):
    """An identifier means index 0."""
    region = named(regions, argument.left)
    if region is None:
        return Failed(UNDECLARED, (argument.left,))
    if region.kind != kind:
        return Failed(SCALAR_MISMATCH, (kind, region.kind))
    return Scalar(argument.left, argument.right if argument.form == REFERENCE else 0, kind, mutable)


def resolve_return(regions, argument, kind):
    return Failed(RETURN_ARGUMENT, argument) if argument.form == IMMEDIATE else scalar(regions, argument, kind, 1)


def vector(regions, argument, parameter):
    if argument.form != IDENTIFIER:
        return Failed(VECTOR_ARGUMENT, argument)
    region = named(regions, argument.left)
    if region is None:
        return Failed(UNDECLARED, (argument.left,))
    if parameter.shape == FIXED and (region.kind, region.length) != (parameter.kind, parameter.length):
        return Failed(VECTOR_MISMATCH, (parameter.kind, parameter.length, region.kind, region.length))
    if region.kind != parameter.kind:
        return Failed(SCALAR_MISMATCH, (parameter.kind, region.kind))
    return Vector(region.name, region.kind, region.length, parameter.mutable)


def resolve_parameter(regions, argument, parameter):
    if argument.form == IMMEDIATE and parameter.mutable:
        return Failed(IMMEDIATE_FOR_MUTABLE, (parameter.name,))
    if parameter.shape != SCALAR:
        return vector(regions, argument, parameter)
    if argument.form == IMMEDIATE:
        return Immediate(argument.left, argument.right, parameter.kind)
    return scalar(regions, argument, parameter.kind, parameter.mutable)


class Call(NamedTuple):
    """The return's kind and the parameters of the extern that a row names, and the row's arguments."""
    returned: list
    parameters: list
    arguments: list


def call_of(tables, row):
    extern = named(tables.externs, row.first)
    if extern is None:
        raise Refused(6)
    return Call([] if extern.returns == NONE else [extern.returns], tables.parameters[extern.first:extern.first + extern.count],
                tables.arguments[row.first_index:row.first_index + row.second])


def resolve_all(tables, row):
    """What becomes of each argument, the return's first."""
    call = call_of(tables, row)
    returns = len(call.returned)
    if len(call.arguments) != len(call.parameters) + returns:
        raise Refused(7)
    return ([resolve_return(tables.regions, call.arguments[0], kind) for kind in call.returned]
            + [resolve_parameter(tables.regions, a, p) for a, p in zip(call.arguments[returns:], call.parameters)])


def resolve(tables, row):
    """One resolved row an argument."""
    resolved = resolve_all(tables, row)
    if any(isinstance(one, Failed) for one in resolved):
        raise Refused(8)
    return resolved


def error_rows(tables, row, resolved):
    """Whose error, the parameter's index, the error and its details."""
    returns = len(call_of(tables, row).returned)
    return [[0 if k < returns else 1, max(k - returns, 0), one.error, *one.details, *[0] * (DETAILS - len(one.details))]
            for k, one in enumerate(resolved) if isinstance(one, Failed)]


def access_sets(tables, row):
    """The names read and the names written, each ascending. Arguments and parameters that have no partner drop off."""
    call = call_of(tables, row)
    mutable = [1 for _ in call.returned] + [parameter.mutable for parameter in call.parameters]
    pairs = [(argument.left, writes) for argument, writes in zip(call.arguments, mutable) if argument.form != IMMEDIATE]
    return sorted({name for name, _ in pairs}), sorted({name for name, writes in pairs if writes})
