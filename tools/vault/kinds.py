"""Pictures of broken rules on names and types: what is wrong with the program's own names and types, and what to do."""
from __future__ import annotations

from . import rules
from .kinds_bodies import BODIES
from .kinds_heads import HEADS
from .picture import Cure, Picture, View, Way
from .report import RuleFault
from .syntax import Span
from .telling import Context, Told

TELLERS = {**HEADS, **BODIES}


def kind_picture(view: View, fault: RuleFault) -> Picture:
    """The picture of a broken rule on names and types."""
    context = Context(view, fault)
    rule = rules.all_rules().get(fault.rule)
    teller = TELLERS.get(fault.rule)
    told = (teller(context) if teller and view.declarations else None) or Told()
    title = rule.title[0].lower() + rule.title[1:] if rule else f"rule {fault.rule}"
    end = told.span.end if told.span and told.span.end > context.offset else context.token_span().end
    mark = view.label(Span(context.offset, end), told.here, "fault")
    ways = (Way("", told.others, False),) if told.others else ()
    cures = told.cures or (() if told.message else tuple(Cure(str(one)) for one in (rule.cures if rule else ())))
    notes = () if told.message else ((rule.cause,) if rule and rule.cause else ())
    link = rule.link if rule else rules.RULES
    return Picture(mark.source, "error", f"rule-{fault.rule}", fault.line, told.message or title, mark, ways, notes, cures, link)
