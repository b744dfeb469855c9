"""Variables of a tree, and assignments to them."""

from __future__ import annotations

import ast
from collections.abc import Iterable, Iterator, Sequence
from contextlib import contextmanager
from dataclasses import replace

from ..channels import LENGTH
from ..vocabulary import RESERVED
from .calls import Calls
from .errors import Place
from .evaluate import Binding, bad
from .symbols import Known, Row, Scalar, Slots, Symbol, is_shared, same_shape, shape_of
from .tree import Assign, Draw, Expr, If, Node, Observe, Statement, Store, While, variables

__all__ = ["Assigner", "RESERVED", "flat"]

MOST = 4096  # variables while a model is unfolded; the text may have 32
FEWER = "use one name for several things in turn, or keep small numbers together in a tuple"


class Assigner(Calls):
    """What emits statements of the tree. A variable has a version for each assignment: what was read before isn't what it is after."""

    def __init__(self) -> None:
        super().__init__()
        self.out: list[Statement] = []
        self.assigned: set[str] = set()
        self.ranges: dict[str, tuple[range, Place]] = {}
        self.names: dict[tuple[object, ...], str] = {}
        self.taken = set(RESERVED)
        self.hidden = False
        self.several = False
        self.version = 0
        self.length = 0

    def allocate(self, key: tuple[object, ...], hint: str) -> str:
        """The variable of a key; the first time a new one, called as the hint says where that is free."""
        if key not in self.names:
            name, number = hint, 2
            while name in self.taken:
                name, number = f"{hint}_{number}", number + 1
            if len(self.names) == MOST:
                self.bad(f"{name} is one variable too many: there are more than {MOST}", FEWER, self.current)
            self.names[key] = name
            self.taken.add(name)
        return self.names[key]

    def emit(self, statement: Statement) -> None:
        """Adds a statement, in which no variable may have changed since it was read."""
        match statement:
            case Assign(value=node) | Observe(value=node):
                self.fresh(node)
            case Store(index=index, value=value):
                self.fresh(index)
                self.fresh(value)
        if self.hidden and (isinstance(statement, (Observe, While)) or isinstance(statement, Assign) and isinstance(statement.value, Draw)):
            bad("a hidden branch only assigns", "draw before it, and observe after it; a branch that is seen is an if without hide", statement.place)
        names = [statement.name] if isinstance(statement, Assign) else statement.names if isinstance(statement, Store) else ()
        self.changed(names)
        self.assigned.update(names)
        self.out.append(statement)
        # How many bytes its text has at least: a name, words, the number of a line, and ends; hidden branches may share a line.
        least = 16 if isinstance(statement, Observe) else 23 if isinstance(statement, If) and not statement.hidden else 12
        self.length += (sum(map(len, names)) + least) // (2 if self.hidden else 1)
        if self.length > LENGTH:
            bad(f"the text passes {LENGTH} bytes", "write a loop by while, or a smaller table", statement.place)

    def changed(self, names: Iterable[str]) -> None:
        """Notes that variables have new values: what was read before isn't what they are."""
        for name in names:
            self.version += 1
            self.versions[name] = self.version

    def as_node(self, symbol: Symbol, node: ast.AST) -> Node:
        """A symbol as what may stand directly in a statement."""
        return symbol if isinstance(symbol, Draw) else self.as_expr(symbol, node)

    def fresh(self, node: Node) -> None:
        """Refuses an expression that was read before one of its variables changed."""
        for variable in variables(node):
            if self.versions.get(variable.name, 0) != variable.version:
                bad(
                    "a variable in this value has changed since a loop or a call took it",
                    "keep it in a variable of its own first: x = ..",
                    variable.place,
                )

    def place(self, node: ast.AST) -> Place:
        """The place of a statement: that of a node."""
        return self.scope.place(node)

    @contextmanager
    def captured(self) -> Iterator[list[Statement]]:
        """Keeps the statements that are emitted in a list of its own."""
        before, self.out = self.out, []
        try:
            yield self.out
        finally:
            self.out = before

    def draw(self, draw: Draw, node: ast.AST, at: tuple[int, ...] = ()) -> Symbol:
        """A draw inside an expression: it is drawn before, into a variable of its own."""
        if not self.strict:
            self.bad("a draw stands in a part of an expression that isn't always evaluated", "draw it before: coin = flip(1, 2)", node)
        return self.kept(draw, node, "drawn", at)

    def kept(self, value: Node, node: ast.AST, hint: str, at: tuple[int, ...] = ()) -> Symbol:
        """A value in a variable of its own, the same one each time that the node is unfolded."""
        name = self.allocate((hint, self.scope.source.function, getattr(node, "lineno", 0), getattr(node, "col_offset", 0), at), hint)
        self.emit(Assign(self.place(node), name, value))
        return self.read(Scalar(name, shape_of(value)), node)

    # Assignments

    def _assign_to(self, target: ast.expr, symbol: Symbol, node: ast.stmt) -> None:
        match target:
            case ast.Name(id=name):
                self.assign_name(name, symbol, node)
            case ast.Subscript():
                self._assign_entry(target, symbol, node)
            case ast.Tuple(elts=targets) | ast.List(elts=targets):
                parts = self.items(symbol, node)
                if len(parts) != len(targets):
                    self.bad(f"{len(parts)} values for {len(targets)} names", "give each name a value", node)
                for each, part in zip(targets, self._apart(parts, self._variables(target), node)):
                    self._assign_to(each, part, node)
            case _:
                self.bad("this can't be assigned to", "assign to a name, or to an entry of an array", target)

    def _variables(self, target: ast.expr) -> set[str]:
        """The variables that an assignment to a target changes."""
        if isinstance(target, (ast.Tuple, ast.List)):
            return {variable for part in target.elts for variable in self._variables(part)}
        while isinstance(target, ast.Subscript):
            target = target.value
        binding = self.scope.names.get(target.id) if isinstance(target, ast.Name) else None
        if isinstance(binding, Row) and binding.slots is not None:
            binding = binding.slots
        return {binding.name} if isinstance(binding, Scalar) else set(flat(binding)) if isinstance(binding, Slots) else set()

    def _apart(self, parts: Sequence[Symbol], changed: set[str], node: ast.AST) -> list[Symbol]:
        """Values that are assigned one after the other, as all were before: where one reads what changes, it is kept first."""
        return [self._copied(part, node, (i,)) if i and self.reads(part, changed) else part for i, part in enumerate(parts)]

    def _copied(self, part: Symbol, node: ast.AST, at: tuple[int, ...]) -> Symbol:
        match part:
            case Row(items=items, is_list=True):
                return Row(tuple(self._copied(item, node, (*at, i)) for i, item in enumerate(items)), True)
            case Expr() | Row():
                expr = self.as_expr(part, node)
                if not any(True for _ in variables(expr)):
                    return part
                name = self.allocate(("kept", self.scope.source.function, getattr(node, "lineno", 0), at), "kept")
                self.emit(Assign(self.place(node), name, expr))
                return self.read(Scalar(name, shape_of(part)), node)
        return part

    def assign_name(self, name: str, symbol: Symbol, node: ast.AST) -> None:
        """An assignment to a local name: a constant that is assigned once stays one, an array gets variables, any other value one."""
        binding = self.scope.names.get(name)
        self.unshared(symbol, node)
        once = self.scope.once(name) and not isinstance(binding, (Scalar, Slots)) and not self.several
        if isinstance(symbol, Known) and once:
            self.scope.names[name] = symbol
            return
        row = self.row_of(symbol)
        if isinstance(row, Row) and row.is_list:
            slots = binding if isinstance(binding, Slots) and self._is_own(binding, name) else self.slots(name, row.items)
            if not same_shape(slots, row.items):
                self.bad(f"{name} has another length here", "an array has one length", node)
            self.assign_slots(slots, row.items, node)
            self.scope.names[name] = slots
            return
        if isinstance(binding, Slots) and self._is_own(binding, name):
            self.bad(f"{name} is an array, and this is none", "use another name", node)
        variable = self.variable_of(name)
        shape = shape_of(symbol)
        self.emit(Assign(self.place(node), variable, self.as_node(symbol, node)))
        if isinstance(binding, Scalar) and binding.shape != shape:
            self.bad(f"{name} is another kind of tuple here than before, or none", "use another name", node)
        self.scope.names[name] = Scalar(variable, shape)

    def _is_own(self, slots: Slots, name: str) -> bool:
        """Whether an array is that of a name, and not another one's that the name stands for."""
        return next(flat(slots), "") in {variable for key, variable in self.names.items() if key[:2] == (self.scope.source.function, name)}

    def _has_variables(self, binding: Binding, name: str) -> bool:
        """Whether a name has variables of its own, and doesn't only stand for something else."""
        return isinstance(binding, Scalar) or isinstance(binding, Slots) and self._is_own(binding, name)

    def unshared(self, symbol: Symbol, node: ast.AST) -> None:
        """Refuses an array that has another name, or a value with one in it: a change of one would be a change of both."""
        if is_shared(symbol):
            self.bad("two names would stand for one array", "copy it: b = list(a), and of an array of arrays each row", node)

    def row_of(self, symbol: Symbol) -> Symbol:
        """A constant list as a row, and so are lists in it; a constant tuple stays one value."""
        if isinstance(symbol, Known) and isinstance(symbol.value, list):
            return Row(tuple(self.row_of(Known(entry)) for entry in symbol.value), True)
        if isinstance(symbol, Row) and symbol.is_list:
            return replace(symbol, items=tuple(map(self.row_of, symbol.items)))
        return symbol

    def variable_of(self, name: str, *at: int) -> str:
        """The variable of a local name, or of an entry."""
        hint = "_".join([self.scope.prefix + name, *map(str, at)])
        return self.allocate((self.scope.source.function, name, *at), hint)

    def slots(self, name: str, items: Sequence[Symbol], at: tuple[int, ...] = ()) -> Slots:
        """Variables for the entries of an array."""
        entries: list[str | Slots] = []
        for i, item in enumerate(items):
            row = self.row_of(item)
            nested = isinstance(row, Row) and row.is_list
            entries.append(self.slots(name, row.items, (*at, i)) if nested and isinstance(row, Row) else self.variable_of(name, *at, i))
        return Slots(tuple(entries))

    def assign_slots(self, slots: Slots, items: Sequence[Symbol], node: ast.AST) -> None:
        """An assignment to each entry of an array, all as they were before."""
        parts = self._apart(items, set(flat(slots)), node)
        for slot, part in zip(slots.entries, parts):
            row = self.row_of(part)
            if isinstance(slot, Slots):
                assert isinstance(row, Row)
                self.assign_slots(slot, row.items, node)
            else:
                self.emit(Assign(self.place(node), slot, self.as_node(part, node)))

    def reads(self, symbol: Symbol, names: set[str]) -> bool:
        """Whether a value has one of these variables in it."""
        match symbol:
            case Row(items=items):
                return any(self.reads(item, names) for item in items)
            case Expr():
                return any(variable.name in names for variable in variables(symbol))
        return False

    def _assign_entry(self, target: ast.Subscript, symbol: Symbol, node: ast.stmt) -> None:
        base = self.value(target.value)
        if not isinstance(base, Row) or base.slots is None:
            self.bad(
                "only entries of an array can be assigned", "a tuple is assigned as a whole; a constant list is copied first: a = list(a)", target
            )
        if isinstance(target.slice, ast.Slice):
            self.bad("parts of an array can't be assigned at once", "assign entry by entry", target)
        index, entries = self.value(target.slice), base.slots.entries
        if isinstance(index, Known):
            if not isinstance(index.value, int) or not -len(entries) <= index.value < len(entries):
                self.bad(f"there are {len(entries)} entries, and none at {index.value!r}", f"indices go from 0 to {len(entries) - 1}", target)
            self.unshared(symbol, node)
            slot = entries[index.value]
            items = [symbol] if isinstance(slot, str) else self.items(symbol, node)
            return self.assign_slots(Slots((slot,)) if isinstance(slot, str) else slot, items, node)
        if not all(isinstance(slot, str) for slot in entries):
            self.bad("a row of an array of arrays has a constant index here", "assign entry by entry: a[i][0] = ..", target)
        names = tuple(slot for slot in entries if isinstance(slot, str))
        self.emit(Store(self.place(node), names, self.as_expr(index, target), self.as_expr(symbol, node)))


def flat(slots: Slots) -> Iterator[str]:
    """The variables of an array, and of those in it."""
    for entry in slots.entries:
        if isinstance(entry, Slots):
            yield from flat(entry)
        else:
            yield entry
