"""Reference systems."""

from plain.valid.faults import Faults
from plain.valid.texts import check_i18n

_SPATIAL_SYSTEMS = ("GeographicCRS", "ProjectedCRS", "VerticalCRS")


def check_referencing(faults: Faults, where: str, referencing) -> None:
    if not faults.needs(where, isinstance(referencing, list), "is no list"):
        return
    for place, entry in enumerate(referencing):
        at = f"{where}[{place}]"
        if faults.is_object(at, entry):
            faults.is_list_of_texts(f"{at}.coordinates", entry.get("coordinates"))
            check_system(faults, f"{at}.system", entry.get("system"))


def check_system(faults: Faults, where: str, system) -> None:
    """Reference system objects: geospatial, temporal, and by identifiers. Others are extensions."""
    if not faults.is_object(where, system):
        return
    kind = system.get("type")
    faults.needs(f"{where}.type", isinstance(kind, str), "is no text")
    if kind in _SPATIAL_SYSTEMS or kind == "IdentifierRS":
        faults.is_text_where_given(where, system, "id")
        check_i18n(faults, where, system, "description")
    if kind == "TemporalRS":
        faults.needs(f"{where}.calendar", isinstance(system.get("calendar"), str), "is no text")
        faults.is_text_where_given(where, system, "timeScale")
    if kind == "IdentifierRS" and faults.is_object(f"{where}.targetConcept", system.get("targetConcept")):
        check_i18n(faults, f"{where}.targetConcept", system["targetConcept"], "label", needed=True)


def systems_of(referencing) -> dict[str, dict]:
    """The reference system of each coordinate that has one."""
    found: dict[str, dict] = {}
    for entry in referencing if isinstance(referencing, list) else []:
        if isinstance(entry, dict) and isinstance(entry.get("coordinates"), list) and isinstance(entry.get("system"), dict):
            for name in entry["coordinates"]:
                found.setdefault(name if isinstance(name, str) else "", entry["system"])
    return found
