"""What pip installs: each program of tools/ that needs no repository, as `cfpp-NAME`."""

from __future__ import annotations

from typing import NoReturn

from .command_line import start
from .programs import annotate as of_annotate
from .programs import explore as of_explore
from .programs import grade as of_grade
from .programs import orders as of_orders
from .programs import plot as of_plot
from .programs import profile as of_profile
from .programs import report as of_report
from .programs import sweep as of_sweep
from .programs import trace as of_trace


def annotate() -> NoReturn:
    start("cfpp-annotate", of_annotate.main)


def explore() -> NoReturn:
    start("cfpp-explore", of_explore.main)


def grade() -> NoReturn:
    start("cfpp-grade", of_grade.main)


def orders() -> NoReturn:
    start("cfpp-orders", of_orders.main)


def plot() -> NoReturn:
    start("cfpp-plot", of_plot.main)


def profile() -> NoReturn:
    start("cfpp-profile", of_profile.main)


def report() -> NoReturn:
    start("cfpp-report", of_report.main)


def sweep() -> NoReturn:
    start("cfpp-sweep", of_sweep.main)


def trace() -> NoReturn:
    start("cfpp-trace", of_trace.main)
