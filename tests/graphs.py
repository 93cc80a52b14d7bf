"""Graphs in Mermaid and in DOT, read line by line by a grammar of the part of each that the program writes."""
import re
from typing import NamedTuple

ID = r"[A-Za-z0-9_]+"
# A label: ASCII letters, digits, space, full stop, hyphen and underscore, whatever is beyond ASCII and shows, and characters by their numbers.
MERMAID_LABEL = r"(?:[A-Za-z0-9 ._-]|[^\x00-\x9f\xad\u061c\u200b-\u200f\u2028-\u202e\u2060-\u206f\ufeff\ufff9-\ufffb\ufffe\uffff\u115f\u3164\ufe00-\ufe0f]|#[0-9]+;)*"
DOT_LABEL = MERMAID_LABEL.replace("#", "&#")

LINES = {
    "mermaid": {
        "mark": rf'({ID})\(\(" "\)\)',
        "end": rf'({ID})\(\(\(" "\)\)\)',
        "state": rf'({ID})\["({MERMAID_LABEL})<br/>({MERMAID_LABEL})"\](?::::(fail|succeed))?',
        "plain": rf"({ID}) --> ({ID})",
        "thick": rf"({ID}) ==> ({ID})",
        "into": rf"({ID}) -\.-> ({ID})",
        "box": rf'subgraph ({ID}) \["({MERMAID_LABEL})"\]',
        "close": r"end",
        "style": r"classDef taken stroke-width:4px",
        "taken": rf"class ({ID}) taken",
        "ended": rf"class ({ID}) (fail|succeed)",
    },
    "dot": {
        "mark": rf"({ID}) \[shape=point\];",
        "end": rf"({ID}) \[shape=point, peripheries=2\];",
        "state": rf'({ID}) \[label="({DOT_LABEL})\\n({DOT_LABEL})"(?:, color=(red3|green4))?\];',
        "plain": rf"({ID}) -> ({ID});",
        "thick": rf"({ID}) -> ({ID}) \[penwidth=4\];",
        "into": rf"({ID}) -> ({ID}) \[style=dotted\];",
        "box": rf"subgraph cluster_({ID}) \{{",
        "close": r"\}",
        "taken": rf"({ID}) \[penwidth=4\];",
        "ended": rf"({ID}) \[color=(red3|green4)\];",
    },
}
# A transition with a label: its parts in order, and what makes it a thick one.
LABELLED = {
    "mermaid": (rf'({ID}) (?:--|(==))>\|"({MERMAID_LABEL})"\| ({ID})', (0, 2, 3), 1),
    "dot": (rf'({ID}) -> ({ID}) \[label="({DOT_LABEL})"(, penwidth=4)?\];', (0, 2, 1), 3),
}
HEADS = {
    "mermaid": ["flowchart TD", "classDef fail stroke:#c00", "classDef succeed stroke:#080"],
    "dot": ["digraph {", "node [shape=box];", "labeljust=l;"],
}
# What the colour of a state says of it.
COLOURS = {None: None, "fail": "Fail", "red3": "Fail", "succeed": "Succeed", "green4": "Succeed"}
ENTITY = {"mermaid": r"#([0-9]+);", "dot": r"&#([0-9]+);"}


class Graph(NamedTuple):
    """What a graph draws: states by identifier, transitions, where machines begin and where they end, and the boxes around each; boxes by
    identifier with their labels; the identifiers of the states that are marked, in order; the transitions that are thick; what is marked as the
    end of a run, with what its colour says."""

    states: dict
    edges: list
    marks: dict
    ends: dict
    boxes: dict
    taken: list
    thick: list
    ended: list


def plain(language, label):
    """The text that a label shows. In DOT what stands behind a backslash is an escape, so two of them are one; Markdown reads labels in Mermaid."""
    text = re.sub(ENTITY[language], lambda found: chr(int(found[1])), label)
    if language == "mermaid":
        assert not re.match(r"([0-9]+[.)]|[-+*]) ", label), f"a list in Markdown: {label}"
        return text
    assert re.fullmatch(r"(?:[^\\]|\\\\)*", text), f"an escape: {text}"
    return text.replace("\\\\", "\\")


def named(word):
    """The name of which an identifier is made."""
    return re.sub(r"_([0-9]+)_", lambda found: chr(int(found[1])), word)


def lines_in(language, text):
    """The lines between the head and the end."""
    assert text.endswith("\n"), text
    lines = text[:-1].split("\n")
    head = HEADS[language]
    assert lines[: len(head)] == head, lines[:2]
    if language == "dot":
        assert lines[-1] == "}", lines[-1]
        return lines[len(head) : -1]
    return lines[len(head) :]


def graph_of(language, text):
    """The graph that a text draws. A line that isn't of the language fails."""
    graph, around, styled = Graph({}, [], {}, {}, {}, [], [], []), [], language == "dot"
    lines = iter(lines_in(language, text))
    pattern, order, thick = LABELLED[language]
    for line in lines:
        labelled = re.fullmatch(pattern, line)
        if labelled:
            start, label, end = (labelled.groups()[place] for place in order)
            graph.edges.append((start, plain(language, label), end))
            if labelled.groups()[thick]:
                graph.thick.append(graph.edges[-1])
            continue
        kinds = [(kind, re.fullmatch(rule, line)) for kind, rule in LINES[language].items()]
        (kind, found), *others = [(kind, found) for kind, found in kinds if found] or [(None, None)]
        assert kind and not others, line
        if kind == "mark":
            graph.marks[found[1]] = tuple(around)
        elif kind == "end":
            graph.ends[found[1]] = tuple(around)
        elif kind == "state":
            assert found[1] not in graph.states, line
            graph.states[found[1]] = (plain(language, found[2]), plain(language, found[3]), tuple(around))
            assert COLOURS[found[4]] == (found[3] if found[3] in ("Fail", "Succeed") else None), line
        elif kind in ("plain", "thick", "into"):
            graph.edges.append((found[1], "into" if kind == "into" else None, found[2]))
            if kind == "thick":
                graph.thick.append(graph.edges[-1])
        elif kind == "box":
            label = found[2] if language == "mermaid" else re.fullmatch(rf'label="({DOT_LABEL})";', next(lines))[1]
            graph.boxes[found[1]] = (plain(language, label), tuple(around))
            around.append(found[1])
        elif kind == "style":
            assert not styled and not around, line
            styled = True
        elif kind == "taken":
            assert styled and not around and found[1] in graph.states, line
            graph.taken.append(found[1])
        elif kind == "ended":
            assert not around, line
            graph.ended.append((found[1], COLOURS[found[2]]))
        else:
            around.pop()
    assert not around, text
    return graph
