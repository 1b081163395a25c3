"""Words that a public name has in one meaning only, with the names that have them."""
from typing import NamedTuple


class Word(NamedTuple):
    # as they stand in names, in small letters
    forms: tuple[str, ...]
    # what to say for the other things that it was said of
    instead: tuple[str, ...]
    # by crates, the names that have it in the meaning of docs/STYLE.md, and those that are given
    right: dict[str, str]


WORDS = {
    "word": Word(
        ("word", "words"),
        ("argument", "code"),
        {
            "beas_core": "begins_word Words",
            "sql_tokens": "InWord Word",
            "sql_text": "word Words",
            "token_reader": "next_is_word take_word take_words want_word",
            "code_index": "word",
            "word_index": "WordGuarded word",
        },
    ),
    "mark": Word(
        ("mark", "marks", "marked", "remark"),
        ("label", "valuation"),
        {"sql_tokens": "Mark", "sql_text": "mark", "token_reader": "next_is_mark take_mark want_mark"},
    ),
    "piece": Word(
        ("piece", "pieces"),
        ("chunk",),
        {
            "sql_tokens": "Piece lex_piece",
            "piece_reader": "read_piece",
            "desk_model": "law_plain_piece",
            "beas_library": "OnePiece one_piece",
            "text_cases": "pieces_in",
        },
    ),
    "place": Word(
        ("place", "places"),
        ("position",),
        {
            "beas_core": "Place place",
            "block_walk": "place",
            "attribute_closure": "open_place",
            "name_resolution": "place_of all_places",
            "named_blocks": "place_at",
            "normal_form": "Places",
            "reference_coverage": "blocks_have_few_places",
            "reference_normal_form": "used_places same_place has_place places_of has_few_places",
            "specialise": "place",
            "beas_library": "place",
        },
    ),
    "number": Word(
        ("number", "numbers", "numbered"),
        ("count", "position"),
        {
            "beas_core": "NumberRange number",
            "beas_library": "number refusal_number",
            "catalogue": "number",
            "drawn_tables": "push_number",
            "name_resolution": "NumberRange",
            "named_blocks": "number_of",
            "normal_form": "number number_classes",
            "plan_ops": "number",
            "reference_coverage": "announced_number number_after",
            "sql_text": "Number number",
            "sql_tokens": "InNumber Number",
            "text_cases": "number_of",
            "token_reader": "number",
        },
    ),
    "step": Word(
        ("step", "steps"),
        ("event", "read"),
        {
            "beas_core": "Steps steps",
            "beas_laws": "law_step",
            "block_walk": "step steps",
            "bound_calculator": "with_step",
            "plan_builder": "needed_steps steps_if_covered take_step",
            "reference_coverage": "greedy_steps steps_of",
            "reference_evaluation": "StepProbe step",
            "version_store": "step",
        },
    ),
}
