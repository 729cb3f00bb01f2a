"""Parameters and groups of them."""

from plain.valid.faults import Faults
from plain.valid.texts import check_i18n, is_whole


def check_parameters(faults: Faults, where: str, parameters) -> None:
    if faults.is_object(where, parameters):
        for name, parameter in parameters.items():
            check_parameter(faults, f"{where}.{name}", parameter)


def check_parameter(faults: Faults, where: str, tree) -> None:
    """Parameter objects."""
    if not faults.is_object(where, tree):
        return
    faults.needs(f"{where}.type", tree.get("type") == "Parameter", "isn't Parameter")
    faults.is_text_where_given(where, tree, "id")
    check_i18n(faults, where, tree, "label")
    check_i18n(faults, where, tree, "description")
    observed = tree.get("observedProperty")
    if not faults.is_object(f"{where}.observedProperty", observed):
        return
    _check_concept(faults, f"{where}.observedProperty", observed)
    if "categories" in observed:
        faults.needs(f"{where}.unit", "unit" not in tree, "stands beside categories")
        _check_categories(faults, where, observed["categories"], tree.get("categoryEncoding", {}))
    if "unit" in tree:
        _check_unit(faults, f"{where}.unit", tree["unit"])


def _check_concept(faults: Faults, where: str, tree: dict) -> None:
    """A label, and perhaps an id and a description."""
    faults.is_text_where_given(where, tree, "id")
    check_i18n(faults, where, tree, "label", needed=True)
    check_i18n(faults, where, tree, "description")


def _check_categories(faults: Faults, where: str, categories, encoding) -> None:
    good = isinstance(categories, list) and len(categories) > 0 and all(isinstance(each, dict) for each in categories)
    if not faults.needs(f"{where}.observedProperty.categories", good, "are no list of objects, or an empty one"):
        return
    for place, category in enumerate(categories):
        at = f"{where}.observedProperty.categories[{place}]"
        faults.needs(f"{at}.id", isinstance(category.get("id"), str), "is no text")
        _check_concept(faults, at, category)
    if not faults.is_object(f"{where}.categoryEncoding", encoding):
        return
    ids = {category.get("id") for category in categories if isinstance(category.get("id"), str)}
    numbers = [number for value in encoding.values() for number in (value if isinstance(value, list) else [value])]
    faults.needs(f"{where}.categoryEncoding", set(encoding) <= ids, "names what is no category")
    good = all(map(is_whole, numbers)) and len(set(numbers)) == len(numbers)
    faults.needs(f"{where}.categoryEncoding", good, "isn't of whole numbers, each once")


def _check_unit(faults: Faults, where: str, unit) -> None:
    if not faults.is_object(where, unit):
        return
    faults.is_text_where_given(where, unit, "id")
    check_i18n(faults, where, unit, "label")
    faults.needs(where, "label" in unit or "symbol" in unit, "has neither a label nor a symbol")
    symbol = unit.get("symbol", "")
    if isinstance(symbol, dict):
        good = all(isinstance(symbol.get(name), str) for name in ("value", "type"))
        faults.needs(f"{where}.symbol", good, "has no texts value and type")
    else:
        faults.needs(f"{where}.symbol", isinstance(symbol, str), "is no text and no object")


def check_groups(faults: Faults, where: str, tree: dict) -> None:
    """Parameter group objects."""
    groups = tree.get("parameterGroups", [])
    if not faults.needs(f"{where}.parameterGroups", isinstance(groups, list), "is no list"):
        return
    for place, group in enumerate(groups):
        at = f"{where}.parameterGroups[{place}]"
        if faults.is_object(at, group):
            faults.needs(f"{at}.type", group.get("type") == "ParameterGroup", "isn't ParameterGroup")
            faults.needs(at, "label" in group or "observedProperty" in group, "has neither a label nor an observedProperty")
            faults.is_list_of_texts(f"{at}.members", group.get("members"))
