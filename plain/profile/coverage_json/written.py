"""CoverageJSON as written (OGC 21-069r2)."""

from plain.profile.coverage_json.coverages import COMPOSITE, Coverage, Document, Domain, Parameter, Referencing
from plain.profile.json_text import write_json
from plain.profile.limits import SPANNED_VALUES
from plain.profile.times import write_instant


def write_document(document: Document) -> str:
    """The text of a document."""
    trees = [coverage_tree(coverage) for coverage in document.coverages]
    if document.is_collection:
        return write_json({"type": "CoverageCollection", "coverages": trees})
    return write_json(trees[0])


def coverage_tree(coverage: Coverage) -> dict:
    """The tree of a coverage."""
    tree = {
        "type": "Coverage",
        "domain": _domain_tree(coverage.domain, coverage.referencing),
        "parameters": {parameter.id: parameter_tree(parameter) for parameter in coverage.parameters},
        "ranges": {
            parameter.id: _range_tree(coverage.domain, values)
            for parameter, values in zip(coverage.parameters, coverage.ranges)
        },
    }
    if coverage.id is not None:
        tree["id"] = coverage.id
    return tree


def _domain_tree(domain: Domain, referencing: Referencing) -> dict:
    return {
        "type": "Domain",
        "domainType": domain.type,
        "axes": {name: _axis_tree(domain, name) for name in domain.axes},
        "referencing": _referencing_tree(domain, referencing),
    }


def _axis_tree(domain: Domain, name: str) -> dict:
    values = domain.axes[name]
    if name == COMPOSITE:
        return {
            "dataType": "tuple",
            "coordinates": list(domain.coordinates),
            "values": [[_coordinate(*pair) for pair in zip(domain.coordinates, numbers)] for numbers in values],
        }
    if name != "t" and _is_regular(values):
        return {"start": values[0], "stop": values[-1], "num": len(values)}
    return {"values": [_coordinate(name, value) for value in values]}


def _coordinate(name: str, number: int) -> int | str:
    return write_instant(number) if name == "t" else number


def _is_regular(values) -> bool:
    """Whether some values, 3 to 4,000,000 of them, are equally far apart."""
    if not 3 <= len(values) <= SPANNED_VALUES:
        return False
    step = values[1] - values[0]
    return all(after - before == step for before, after in zip(values, values[1:]))


def _referencing_tree(domain: Domain, referencing: Referencing) -> list:
    entries = [{"coordinates": ["x", "y"], "system": _system("ProjectedCRS", referencing.crs or None)}]
    if domain.has("z"):
        entries.append({"coordinates": ["z"], "system": _system("VerticalCRS", referencing.vertical)})
    if domain.has("t"):
        entries.append({"coordinates": ["t"], "system": {"type": "TemporalRS", "calendar": "Gregorian"}})
    return entries


def _system(type_: str, id_: str | None) -> dict:
    return {"type": type_} if id_ is None else {"type": type_, "id": id_}


def parameter_tree(parameter: Parameter) -> dict:
    """The tree of a parameter."""
    tree = {"type": "Parameter", "observedProperty": {"label": {parameter.language: parameter.label}}}
    if parameter.unit is not None:
        tree["unit"] = {"symbol": parameter.unit}
    return tree


def _range_tree(domain: Domain, values: list) -> dict:
    tree = {"type": "NdArray", "dataType": "integer", "values": values}
    names = [name for name in domain.axes if domain.type == "Grid" or len(domain.axes[name]) > 1]
    if names:
        tree["axisNames"] = names
        tree["shape"] = [len(domain.axes[name]) for name in names]
    return tree
