"""From names to places: what the blocks of a query are over a database's tables, or why it is refused."""
from .database import INTEGERS, MOST_OF_A_TEXT, Database, Row, Table, limited, refuse_repeated
from .reading import Tree
from .scopes import Block, Condition, Scope, Side, literal_value, sides_of, trees_of
from .tokens import Refused
from .trees import Delete, Either, Number, Ref, SelectBlock, Words

# a block, or a UNION or an EXCEPT of such
Query = Block | Either


# ---- refusals, each kind over the whole query before the next


def refuse_unknown_columns(scopes: list[Scope]) -> None:
    for scope in scopes:
        for ref in filter(lambda side: isinstance(side, Ref), scope.sides()):
            if not scope.places_of(ref):
                raise Refused(5, f"unknown column {ref.table}.{ref.column}" if ref.table else f"unknown column {ref.column}")


def refuse_ambiguous(scopes: list[Scope]) -> None:
    for scope in scopes:
        for ref in filter(lambda side: isinstance(side, Ref), scope.sides()):
            if len(scope.places_of(ref)) > 1:
                raise Refused(6, f"ambiguous column {ref.column}")


def refuse_literals(sides: list[Side]) -> None:
    """A number that is out of range, and else a text that is too long."""
    for side in sides:
        if isinstance(side, Number) and literal_value(side) not in INTEGERS:
            raise Refused(14, f"number {'-' * side.is_negative}{side.digits} out of range")
    for side in sides:
        if not isinstance(side, (Number, Ref)) and len(side.text.encode()) > MOST_OF_A_TEXT:
            raise Refused(26, f"text longer than {MOST_OF_A_TEXT} bytes")


def refuse_mixed(scopes: list[Scope]) -> None:
    for block, scope in enumerate(scopes, 1):
        for number, condition in enumerate(scope.tree.conditions, 1):
            if len({scope.kind_of(side) for side in sides_of(condition)}) > 1:
                raise Refused(8, f"type mismatch in block {block} condition {number}")


def refuse_shapes(scopes: list[Scope]) -> None:
    for block, scope in enumerate(scopes, 1):
        if scope.output_kinds() != scopes[0].output_kinds():
            raise Refused(9, f"shape mismatch at block {block}")


def refuse_counts(scopes: list[Scope]) -> None:
    limited("blocks", len(scopes))
    for scope in scopes:
        limited("atoms", len(scope.tables))
    for scope in scopes:
        limited("outputs", len(scope.tree.items or []))


def scopes_of(db: Database, tree: Tree) -> list[Scope]:
    """The scopes of a query's blocks, or the first refusal."""
    scopes = [Scope(db, one) for one in trees_of(tree)]
    for scope in scopes:
        refuse_repeated(scope.aliases)
    refuse_unknown_columns(scopes)
    refuse_ambiguous(scopes)
    refuse_literals([side for scope in scopes for side in scope.sides()])
    refuse_mixed(scopes)
    refuse_shapes(scopes)
    refuse_counts(scopes)
    return scopes


def block_of(number: int, scope: Scope) -> Block:
    widths = [len(table.columns) for table in scope.tables]
    return Block(number, [table.name for table in scope.tables], widths, scope.conditions(), scope.output())


def rebuilt(tree: Tree, blocks: list[Block]) -> Query:
    """A tree with these blocks, which are taken away, in the place of its own."""
    if isinstance(tree, Either):
        left = rebuilt(tree.left, blocks)
        return Either(tree.sign, left, rebuilt(tree.right, blocks))
    return blocks.pop(0)


def bind(db: Database, tree: Tree) -> tuple[Query, list[str]]:
    """The query that a tree is, and the names of its columns."""
    scopes = scopes_of(db, tree)
    first = scopes[0]
    header = [first.tables[place.atom].names[place.column] for place in first.output()]
    return rebuilt(tree, [block_of(number, scope) for number, scope in enumerate(scopes)]), header


def bind_delete(db: Database, statement: Delete) -> list[Condition]:
    """The conditions of a DELETE."""
    scope = Scope(db, SelectBlock(True, [], [(statement.table, statement.table)], statement.conditions))
    refuse_unknown_columns([scope])
    refuse_literals(scope.sides())
    refuse_mixed([scope])
    return scope.conditions()


def bind_rows(table: Table, rows: list[list[Number | Words]]) -> list[Row]:
    """The rows of an INSERT."""
    refuse_literals([literal for row in rows for literal in row])
    values = [tuple(map(literal_value, row)) for row in rows]
    for number, row in enumerate(values, 1):
        if len(row) != len(table.columns):
            raise Refused(13, f"row {number} has {len(row)} values, {len(table.columns)} wanted")
    for number, row in enumerate(values, 1):
        for value, (column, kind) in zip(row, table.columns):
            if not isinstance(value, kind):
                raise Refused(8, f"type mismatch in row {number} column {column}")
    return values
