"""The reader of canonical spellings, against trees that are known, and against goref's counts."""

import random
import re

import pytest
from hypothesis import given, settings, strategies as some

import goref
from goref._tools.refusals import moves_in
from goref._tools.spelling import main_line, nodes_on, simple_text_of, text_of, vertex_of

# What a value may have between its brackets: no `]` and no `\` that doesn't belong to an escape.
PIECES = [b"a", b"[", b"(", b";", b")", b"B", b" ", b"\n", b"\\]", b"\\\\", b"\\\n", "\u5fc5".encode(), b"\x00", b":"]
NAMES = ["C", "LB", "XYZ", "N", "TR"]


def tree_of(chance, depth=0):
    """A tree by chance: its nodes, each a list of names with values, and its children."""
    nodes = [
        [
            (
                chance.choice(NAMES),
                [b"".join(chance.choices(PIECES, k=chance.randrange(6))) for _ in range(chance.randint(1, 3))],
            )
            for _ in range(chance.randrange(4))
        ]
        for _ in range(chance.randint(1, 3))
    ]
    return nodes, [tree_of(chance, depth + 1) for _ in range(chance.randrange(4) if depth < 3 else 0)]


TREES = [tree_of(random.Random(seed)) for seed in range(300)]


def spelt(tree, loose=lambda part: part):
    """A tree in SGF; `loose` may put something around each part."""
    nodes, children = tree
    parts = [b"("]
    for node in nodes:
        parts.append(b";")
        for name, values in node:
            parts.append(name.encode())
            parts.extend(b"[" + value + b"]" for value in values)
    parts = [loose(part) for part in parts]
    return b"".join(parts) + b"".join(spelt(child, loose) for child in children) + loose(b")")


def first_nodes(tree):
    """The nodes of the main line of a tree."""
    nodes, children = tree
    return nodes + (first_nodes(children[0]) if children else [])


def read(spelling):
    return [[(one.name, one.values) for one in node.properties] for node in main_line(spelling)]


@pytest.mark.no_library
def test_the_main_line_of_a_tree():
    for tree in TREES:
        assert read(spelt(tree) + b"\n") == first_nodes(tree)


@pytest.mark.parametrize("space", [b" ", b"\n", b"\r\n\t", b"\x0b\x0c"])
def test_goref_spells_trees_as_the_reader_wants_them(space):
    def loose(part):
        return (b"xy" + part if part[:1].isalpha() else part) + space

    for tree in TREES:
        assert goref.tidy(b"no " + spelt(tree, loose)) == spelt(tree) + b"\n"


@pytest.mark.no_library
def test_places_of_nodes_and_properties():
    for spelling, node in [(spelt(tree), node) for tree in TREES for node in main_line(spelt(tree))]:
        assert spelling[node.begin : node.begin + 1] == b";"
        parts = [spelling[one.begin : one.end] for one in node.properties]
        assert b";" + b"".join(parts) == spelling[node.begin : node.end]
        for one, part in zip(node.properties, parts):
            assert part == one.name.encode() + b"".join(b"[" + value + b"]" for value in one.values)


@pytest.mark.no_library
def test_the_tree_at_a_place_is_read():
    for one, other in zip(TREES, TREES[1:]):
        before = spelt(one) + b"\n"
        nodes = list(nodes_on(before + spelt(other), len(before)))
        assert [[(p.name, p.values) for p in node.properties] for node in nodes] == first_nodes(other)


def line_of(moves):
    """A main line on 5 lines in which no move is refused: each point once, each move in a node with a comment."""
    return b"".join(b";" + name.encode() + b"[" + point + b"]C[;B\\]]" for name, point in moves)


LINES = some.lists(
    some.tuples(some.sampled_from("BW"), some.sampled_from([b"aa", b"cc", b"ee", b"", b"ea", b"ae"])),
    max_size=6,
    unique_by=lambda move: move[1],
)


@given(LINES, some.sampled_from([b"", b"(;B[bb])", b"(;W[bb]C[(;B])(;AB[bb];B[zz])"]))
@settings(max_examples=50)
def test_moves_are_counted_as_goref_counts_them(moves, children):
    record = b"(;SZ[5]" + line_of(moves) + children + b")"
    assert moves_in(main_line(goref.tidy(record))) == goref.judge(record).moves


@given(LINES, some.integers(0, 6), some.sampled_from([b";B[zz]", b"(;W[f\\a])", b"(;C[x]B[aaa](;B[])(;W[]))"]))
@settings(max_examples=50)
def test_nodes_are_numbered_as_goref_numbers_them(moves, place, bad):
    record = b"(;SZ[5]" + line_of(moves[:place]) + bad + b")"
    with pytest.raises(goref.Refused) as why:
        goref.judge(record)
    number = int(re.fullmatch(r"bad value in node (\d+)", str(why.value))[1])
    node = main_line(goref.tidy(record))[number]
    assert any(one.name in "BW" and one.values[0] in (b"zz", b"f\\a", b"aaa") for one in node.properties)


@pytest.mark.no_library
def test_first_values():
    [node] = main_line(b"(;C[a][b]N[c]C[d])")
    assert (node.first("C"), node.first("N"), node.first("X")) == (b"a", b"c", None)


@pytest.mark.no_library
@pytest.mark.parametrize(
    "value, text, simple",
    [
        (b"", "", ""),
        (b" a  b ", " a  b", "a  b"),
        (b"a\nb", "a\nb", "a b"),
        (b"a\r\nb\n\rc\rd", "a\nb\nc\nd", "a b c d"),
        (b"a\n\nb", "a\n\nb", "a  b"),
        (b"a\\\nb\\\r\nc", "abc", "abc"),
        (b"a\\\n\nb", "a\nb", "a b"),
        (b"\\]\\\\\\:\\a", "]\\:a", "]\\:a"),
        (b"a\tb\\\tc\vd", "a b c d", "a b c d"),
        ("\u5fc5\\\u5fc5".encode(), "\u5fc5\u5fc5", "\u5fc5\u5fc5"),
        (b"a\xffb", "a\ufffdb", "a\ufffdb"),
        (b"\\\\n", "\\n", "\\n"),
    ],
)
def test_texts(value, text, simple):
    assert (text_of(value), simple_text_of(value)) == (text, simple)


@pytest.mark.no_library
@pytest.mark.parametrize(
    "value, size, vertex",
    [
        (b"aa", 19, "A19"),
        (b"ss", 19, "T1"),
        (b"ia", 9, "J9"),
        (b"hh", 9, "H2"),
        (b"yy", 25, "Z1"),
        (b"tt", 20, "U1"),
        (b"tt", 19, "pass"),
        (b"", 19, "pass"),
        (b" \n\t", 25, "pass"),
        (b" pd ", 19, "Q16"),
        (b"tt", 9, "pass"),
    ],
)
def test_vertices(value, size, vertex):
    assert vertex_of(value, size) == vertex


@pytest.mark.no_library
@pytest.mark.parametrize(
    "value, size", [(b"AA", 19), (b"a", 19), (b"aaa", 19), (b"ja", 9), (b"a a", 19), (b"\xc3\xa4", 19)]
)
def test_what_names_no_point(value, size):
    with pytest.raises(ValueError):
        vertex_of(value, size)


@pytest.mark.no_library
def test_a_long_value_with_escapes_and_a_deep_tree_are_read():
    value = b"\\]" * 300_000
    [node] = main_line(b"(;C[" + value + b"])")
    assert node.first("C") == value
    assert len(main_line(b"(;B[]" * 1000 + b")" * 1000)) == 1000
