"""Readers of the field's files (docs/FILES.md). Each refusal is a `TextRefused` with its place."""

from . import clauses, cuts, knapsacks, tours
from .base import Converted, Form, Reading
from .tours import join_end_depot

FORMS: dict[str, Form] = {form.name: form for module in (cuts, clauses, tours, knapsacks) for form in module.FORMS}
"""Every form, by its name."""


def convert(form: str, text: str, number: int = 1) -> Converted:
    """The instance that a text of that form holds, or of several the one of that number, from 1."""
    return FORMS[form].read(text, number)


__all__ = ["FORMS", "Converted", "Form", "Reading", "convert", "join_end_depot"]
