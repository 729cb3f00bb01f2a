"""Coverages and collections of them."""

from plain.valid.domains import check_domain
from plain.valid.faults import Faults
from plain.valid.parameters import check_groups, check_parameters
from plain.valid.ranges import check_range
from plain.valid.systems import check_referencing


def check_collection(faults: Faults, tree: dict) -> None:
    """Coverage collection objects."""
    if "domainType" in tree:
        faults.needs("collection.domainType", isinstance(tree["domainType"], str), "is no text")
    if "parameters" in tree:
        check_parameters(faults, "collection.parameters", tree["parameters"])
    check_groups(faults, "collection", tree)
    if "referencing" in tree:
        check_referencing(faults, "collection.referencing", tree["referencing"])
    if not faults.needs("collection.coverages", isinstance(tree.get("coverages"), list), "is no list"):
        return
    for place, coverage in enumerate(tree["coverages"]):
        where = f"coverages[{place}]"
        if faults.is_object(where, coverage):
            faults.needs(f"{where}.type", coverage.get("type") == "Coverage", "isn't Coverage")
            check_coverage(faults, where, coverage, tree)


def check_coverage(faults: Faults, where: str, tree: dict, collection: dict) -> None:
    """Coverage objects. The collection lends what the coverage lacks."""
    faults.is_text_where_given(where, tree, "id")
    if "parameters" in tree:
        check_parameters(faults, f"{where}.parameters", tree["parameters"])
    else:
        faults.needs(f"{where}.parameters", "parameters" in collection, "are absent, in the collection too")
    check_groups(faults, where, tree)
    axes = _check_domain_of(faults, where, tree, collection)
    parameters = tree.get("parameters", collection.get("parameters"))
    names = set(parameters) if isinstance(parameters, dict) else set()
    if faults.is_object(f"{where}.ranges", tree.get("ranges")):
        for name, found in tree["ranges"].items():
            faults.needs(f"{where}.ranges.{name}", name in names, "has no parameter")
            check_range(faults, f"{where}.ranges.{name}", found, axes)


def _check_domain_of(faults: Faults, where: str, tree: dict, collection: dict) -> dict[str, int] | None:
    """Checks the domain of a coverage; gives the lengths of its axes where they are known."""
    domain = tree.get("domain")
    if isinstance(domain, str):
        return None  # a URL
    if not faults.is_object(f"{where}.domain", domain):
        return None
    faults.needs(f"{where}.domain.type", domain.get("type") == "Domain", "isn't Domain")
    if "domainType" in tree and "domainType" in domain:
        faults.needs(f"{where}.domainType", tree["domainType"] == domain["domainType"], "isn't that of the domain")
    lent = {**collection, **({"domainType": tree["domainType"]} if "domainType" in tree else {})}
    return check_domain(faults, f"{where}.domain", domain, lent)
