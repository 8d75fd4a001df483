"""The readers take the reports of random calls, and what a call must hold to is seen."""

from __future__ import annotations

import itertools
import os
import random

from cfpp_tools.fuzzing.calling import Caller
from cfpp_tools.fuzzing.cases import try_case
from cfpp_tools.fuzzing.judging import Call, faults
from cfpp_tools.readers.reports import plain, read_report

# tools/checks --all asks for more.
REPORTS = int(os.environ.get("CFPP_REPORTS", "60"))


def test_random_reports(tmp_path, built):
    caller = Caller(built, tmp_path)
    cases = (try_case(caller, random.Random(f"readers {number}")) for number in itertools.count())
    calls = ((call, wrong) for case in cases for call, wrong in case if call.report)
    for call, wrong in itertools.islice(calls, REPORTS):
        assert wrong == [], call.arguments
        assert plain(read_report(call.report))["type"]


def test_what_is_wrong_with_a_call():
    assert list(faults(Call(["check", "plain"], 0))) == []
    assert list(faults(Call(["check", "plain"], 0, report="exit 0\n"))) == ["it has a report"]
    assert list(faults(Call(["machine", "p"], 7, report="exit 8\n"))) == ["its report has not the form of status 7"]
    refused = Call(["machine", "p"], 128, report="read fault program\n", output_size=1)
    assert list(faults(refused)) == ["it was refused and wrote to the output"]
    assert list(faults(Call(["machine", "p"], -11)))[0] == "signal 11 ended it"
    assert "it did not end" in next(faults(Call(["machine", "p"])))


def test_what_is_wrong_with_a_search_or_a_log():
    counted = "states 1\nmoves 0\nends 1\norders 1\n"
    assert list(faults(Call(["orders", "plain", "p"], 0, report=counted))) == []
    assert list(faults(Call(["orders", "plain", "p"], 136, report=counted))) == ["its report has not the form of status 136"]
    barred = Call(["conform", "plain", "p"], 134, report="bad log line 1: Barred LaneEmpty\n", is_recorded=True)
    assert list(faults(barred)) == ["its report has not the form of status 134", "a trace that was recorded does not agree"]
