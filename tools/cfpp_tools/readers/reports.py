"""Any report, by the reader of its form."""

from __future__ import annotations

import dataclasses
from typing import Any, Callable, Dict, Union

from .audits import AuditReport, read_audit
from .conforms import ConformReport, read_conform
from .lines import Lines, ReadFault
from .orders import OrdersReport, read_orders
from .runs import RunReport, read_run
from .sessions import SessionReport, read_session
from .times import TimesReport, read_times

Report = Union[RunReport, TimesReport, AuditReport, ConformReport, OrdersReport, SessionReport]

# In this order: what refuses a call, or is a retired instruction's line, may be in reports of several commands.
READERS: Dict[str, Callable[[Lines], Report]] = {
    "run": read_run,
    "time": read_times,
    "audit": read_audit,
    "conform": read_conform,
    "orders": read_orders,
    "debug": read_session,
}


def read_report(text: str) -> Report:
    """The report of this text. Where no reader takes it, the one that came farthest says what is wrong."""
    faults = []
    for read in READERS.values():
        try:
            return read(Lines(text))
        except ReadFault as fault:
            faults.append(fault)
    raise max(faults, key=lambda fault: fault.line)


def plain(value: Any) -> Any:
    """A value as JSON has it: a typed answer becomes an object that names its type."""
    if dataclasses.is_dataclass(value) and not isinstance(value, type):
        fields = {field.name: plain(getattr(value, field.name)) for field in dataclasses.fields(value)}
        return {"type": type(value).__name__, **fields}
    if isinstance(value, dict):
        return {str(key): plain(part) for key, part in value.items()}
    if isinstance(value, (list, tuple)):
        return [plain(part) for part in value]
    return value
