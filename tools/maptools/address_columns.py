"""Which columns of address points and road centre lines stand for which elements of an address.

The names are those of OpenAddresses and of NENA's GIS data model (NENA-STA-006), without regard to case, and those of the
elements themselves. A centre line has its columns twice, with _L and _R at their ends.
"""
from __future__ import annotations

from typing import Any, Dict, List, Tuple

from maptools.desk_rules import ELEMENTS
from maptools.meridian import Unfit
from maptools.templates import Template, fill, text_of
from maptools.texts import lowered, size

OPENADDRESSES = {"region": "A1", "district": "A2", "city": "A3", "street": "RD", "number": "HNO", "unit": "UNIT", "postcode": "PC"}
NENA = {
    "Country": "country", "State": "A1", "County": "A2", "Inc_Muni": "A3", "IncMuni": "A3", "Uninc_Comm": "A4", "UnincCom": "A4",
    "Nbrhd_Comm": "A5", "NbrhdCom": "A5", "St_PreMod": "PRM", "St_PreDir": "PRD", "St_PosTyp": "STS", "St_PosDir": "POD",
    "St_PosMod": "POM", "AddNum_Suf": "HNS", "LandmkName": "LMK", "Addtl_Loc": "LOC", "Floor": "FLR", "Post_Code": "PC",
    "PostCode": "PC", "Building": "BLD", "Unit": "UNIT", "Room": "ROOM", "Seat": "SEAT", "Place_Type": "PLC", "Post_Comm": "PCN",
    "PostComm": "PCN", "AddCode": "ADDCODE",
}  # fmt: skip
# Elements that columns in this order make together, and what stands between them.
JOINED: Dict[str, Tuple[str, List[str]]] = {
    "RD": (" ", ["St_PreTyp", "St_PreSep", "St_Name"]),
    "HNO": ("", ["AddNum_Pre", "Add_Number"]),
}
PREFIX_OF_RANGE = "adnumpre"
LONGEST_VALUE = 512

ELEMENT_OF = {
    **{element.lower(): element for element in ELEMENTS},
    **{column.lower(): element for column, element in {**OPENADDRESSES, **NENA}.items()},
}
SPACES = "\t\n\v\f\r "

TABLE = """columns that are known, in any case, and their elements:
  OpenAddresses: number HNO, street RD, unit UNIT, city A3, district A2, region A1, postcode PC
  NENA, points:  Country country, State A1, County A2, Inc_Muni A3, Uninc_Comm A4, Nbrhd_Comm A5, St_PreMod PRM, St_PreDir PRD,
                 St_PreTyp St_PreSep St_Name RD, St_PosTyp STS, St_PosDir POD, St_PosMod POM, AddNum_Pre Add_Number HNO,
                 AddNum_Suf HNS, Building BLD, Floor FLR, Unit UNIT, Room ROOM, Seat SEAT, Addtl_Loc LOC, LandmkName LMK,
                 Place_Type PLC, Post_Code PC, Post_Comm PCN, AddCode ADDCODE
  NENA, roads:   FromAddr_L ToAddr_L Parity_L AdNumPre_L HNO, Country_L country, State_L A1, County_L A2, IncMuni_L A3,
                 UnincCom_L A4, NbrhdCom_L A5, PostCode_L PC, PostComm_L PCN, AddCode_L ADDCODE, the same with _R, and the
                 street as for points
  and the names of the elements themselves, such as A3 or RD"""


def folded(text: str) -> str:
    """The comparison text of a value, as the server has it."""
    return " ".join(part for part in lowered(text.translate({ord(space): " " for space in SPACES})).split(" ") if part)


def by_lower_name(row: Dict[str, Any]) -> Dict[str, str]:
    """The values of a row as texts without white space around them, by their names in lower case; those that are empty are
    left out."""
    texts = {name.lower(): text_of(name, value) for name, value in row.items() if not isinstance(value, (dict, list))}
    return {name: text.strip(SPACES) for name, text in texts.items() if text and text.strip(SPACES)}


def joined(values: Dict[str, str], element: str) -> str:
    """An element that several columns make."""
    between, columns = JOINED[element]
    is_there = columns[-1].lower() in values
    return between.join(values[column.lower()] for column in columns if column.lower() in values) if is_there else ""


def elements_of(row: Dict[str, Any], given: Dict[str, Template]) -> Dict[str, str]:
    """The elements of the address of a row: by the templates given, and else by the columns that are known."""
    values = by_lower_name(row)
    found = {ELEMENT_OF[name]: value for name, value in values.items() if name in ELEMENT_OF}
    found.update({element: text for element in JOINED for text in [joined(values, element)] if text})
    found.update({element: (fill(template, row) or "").strip(SPACES) for element, template in given.items()})
    for element, value in found.items():
        if size(value) > LONGEST_VALUE:
            raise Unfit(f"has a value of {element} of {size(value):,} bytes, and at most {LONGEST_VALUE} are allowed")
    return {element: value for element, value in found.items() if value}
