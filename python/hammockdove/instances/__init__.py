"""Instances of each problem, from lists, arrays and graphs, and their texts (docs/FORMATS.md)."""

from .base import PROBLEMS, Instance
from .cut import MaxCut
from .knapsack import Knapsack
from .machine import Tardiness
from .quadratic import Qubo
from .sat import Max2Sat
from .table import Table
from .tours import Tsptw

__all__ = ["PROBLEMS", "Instance", "Knapsack", "Max2Sat", "MaxCut", "Qubo", "Table", "Tardiness", "Tsptw"]
