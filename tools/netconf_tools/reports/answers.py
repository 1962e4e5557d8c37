"""Answers of netconf-query and findings as JSON. `answers.schema.json` beside this file is the schema of all of them.

An address is a text in hexadecimal, since readers of JSON may keep 53 bits of a number. Each object has a `kind`,
which says which part of the schema is its own, and a `format`, which grows when a key changes its meaning or goes."""

from collections.abc import Iterable, Sequence
from typing import Any

from netconf_tools.claims import Claims, Verdict
from netconf_tools.differences import Difference
from netconf_tools.findings import Finding, Note
from netconf_tools.text import Piece
from netconf_tools.views import ACCESSES, Board

FORMAT = 1
"""The format of the objects."""

Json = dict[str, Any]


def headed(kind: str, answer: Json) -> Json:
    """An answer with its kind and its format before its keys."""
    return {"kind": kind, "format": FORMAT, **answer}


def missing(board: Board, accepted: frozenset[str] = frozenset()) -> Json:
    """What an answer does not rest on: commands that are refused, masters that are left out of the description, and
    slots that are shut out. `accepted` has the paths of masters that a claim accepts."""
    refused = [{"file": file, "line": line, "command": word, "id": title, "fault": fault}
               for file, line, word, title, fault in board.refused]
    left_out = [{"file": file, "line": line, "path": path, "reason": reason, "accepted": path in accepted}
                for file, line, path, reason in board.left_out]
    shut_out = [{"unit": unit, "slot": slot} for unit, slot in board.shut]
    return {"refused": refused, "left_out": left_out, "shut_out": shut_out}


def piece_json(piece: Piece) -> Json:
    """A piece: its first and last address, its node, and the address in the node of the first."""
    return {"first": hex(piece.lo), "last": hex(piece.hi), "node": piece.node, "at": hex(piece.at)}


def who_answer(board: Board, targets: Iterable[tuple[str, int, int]], accesses: Sequence[str],
               rows: Iterable[tuple[str, Piece, tuple[str, ...]]]) -> Json:
    """The answer to `who`: the names that were asked about, and what each agent sees of them."""
    asked = [{"node": node, "first": hex(low), "last": hex(high)} for node, low, high in targets]
    seen = [{"agent": agent, **piece_json(piece), "access": list(allowed)} for agent, piece, allowed in rows]
    return headed("who", {"asked": asked, "access": list(accesses), "seen": seen, **missing(board)})


def where_answer(board: Board, agent: str, asked: tuple[str, int], targets: Iterable[tuple[str, int]],
                 rows: Iterable[tuple[str, Piece, tuple[str, ...]]]) -> Json:
    """The answer to `where`: the name that was asked about, the names to which it comes, and the addresses of the
    agent."""
    names = [{"node": node, "at": hex(at)} for node, at in targets]
    addresses = [{"address": hex(piece.lo), "node": piece.node, "at": hex(piece.at), "access": list(allowed)}
                 for _, piece, allowed in rows]
    answer = {"agent": agent, "node": asked[0], "at": hex(asked[1]), "names": names, "addresses": addresses}
    return headed("where", {**answer, **missing(board)})


def optional_hex(address: int | None) -> str | None:
    """An address as a text, or nothing."""
    return None if address is None else hex(address)


def diff_answer(boards: tuple[Board, Board], gone: list[str], come: list[str], changes: Iterable[Difference]) -> Json:
    """The answer to `diff`: agents of one side alone, and what the others see otherwise."""
    differences = [{"agents": list(change.agents), "access": [change.access] if change.access else list(ACCESSES),
                    "node": change.node, "first": hex(change.first), "last": hex(change.last),
                    "old": optional_hex(change.old), "new": optional_hex(change.new)} for change in changes]
    sides = {"old": missing(boards[0]), "new": missing(boards[1])}
    return headed("diff", {"agents_gone": gone, "agents_new": come, "differences": differences, **sides})


def verdict_json(verdict: Verdict) -> Json:
    """A claim with its place, whether it holds, and the rows that break it."""
    line, rows = verdict.line, [{"agent": agent, "access": access, "row": row} for agent, access, row in verdict.rows]
    return {"file": line.file, "line": line.line, "column": line.column, "claim": line.words, "where": line.where,
            "holds": verdict.holds, "rows": rows, "rows_are_all": verdict.is_all}


def test_answer(claims: Claims, verdicts: Iterable[Verdict], findings: Iterable[Finding]) -> Json:
    """The answer to `test`: each claim; other findings, as texts that are no claims; and what no verdict rests on."""
    parts = [verdict_json(verdict) for verdict in verdicts]
    return headed("test", {"claims": parts, "failed": sum(not part["holds"] for part in parts),
                           "findings": [finding_json(finding) for finding in findings],
                           **missing(claims.judge.board, frozenset(claims.accepted_paths))})


def place_json(place: Finding | Note) -> Json:
    """The place and the message of a finding or a note."""
    return {"file": place.file, "line": place.line, "column": place.column, "message": place.message}


def finding_json(finding: Finding) -> Json:
    """A finding with its notes."""
    notes = [place_json(note) for note in finding.notes]
    return {**place_json(finding), "severity": finding.severity, "rule": finding.rule, "notes": notes}


def findings_answer(files: Iterable[str], findings: Iterable[Finding]) -> Json:
    """The findings of netconf-lint in files."""
    return headed("findings", {"files": list(files), "findings": [finding_json(finding) for finding in findings]})
