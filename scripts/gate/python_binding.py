"""What bindings/python has of include/h3.h by hand: declarations, structs, numbers. c_header.py compares them; no library is loaded."""
import ctypes
import dataclasses
import os
import re
import sys

ROOT = os.path.dirname(os.path.dirname(os.path.dirname(os.path.realpath(__file__))))
sys.path.insert(0, f"{ROOT}/bindings/python")
sys.dont_write_bytecode = True
from beanwhile_h3 import config, errors, items, raw  # noqa: E402

STRUCTS = {"h3_endpoint": raw.Handle, "h3_field_size": raw.FieldSize, "h3_item": raw.RawItem, "h3_stream_state": raw.RawStream,
           "h3_state": raw.RawConnection, "h3_capsule_reader": raw.RawReader, "h3_capsule": raw.RawCapsule}
NUMBERS = {"uint32_t": ctypes.c_uint32, "uint64_t": ctypes.c_uint64, "size_t": ctypes.c_size_t}


def kind(text):
    """the type of ctypes that stands for a type of C"""
    if text == "const uint8_t *":
        return ctypes.c_char_p
    if text == "uint8_t *":
        return ctypes.POINTER(ctypes.c_char)
    base = text.removeprefix("const ").removesuffix(" *")
    it = NUMBERS.get(base) or STRUCTS.get(base)
    return ctypes.POINTER(it) if text.endswith("*") else it


def wrong_declarations(declared):
    """the exports that are declared in another way than in the header, or not at all"""
    wanted = {name: (kind(result), [kind(it) for it in given]) for name, (result, given) in declared.items()}
    here = raw.DECLARATIONS
    return [(it, wanted.get(it), here.get(it)) for it in sorted({*wanted, *here}) if wanted.get(it) != here.get(it)]


def wrong_structs(structs):
    """the structs that have other fields than in the header"""
    wanted = {name: [(field, kind(it)) for it, field in structs[name]] for name in STRUCTS if name != "h3_endpoint"}
    wrong = [(name, it, STRUCTS[name]._fields_) for name, it in wanted.items() if it != STRUCTS[name]._fields_]
    return wrong if raw.Handle._fields_ == [("at", ctypes.c_void_p)] else [*wrong, "h3_endpoint"]


def wrong_numbers(header, numbers, structs):
    """the numbers that are not those of the header; `numbers` reads a list of constants there"""
    wrong = []
    for name, here in (("h3_answer", errors.Answer), ("h3_kind", items.Kind), ("h3_malformation", errors.Malformation)):
        wrong += sorted(set(numbers(header, name).items()) ^ {(f"H3_{it.name}", it.value) for it in here})
    codes = re.findall(r"#define H3_CODE_(\w+) UINT64_C\((\w+)\)", header)
    wrong += sorted({(name, int(n, 16)) for name, n in codes} ^ {(it.name, it.value) for it in errors.Code})
    read = ["size", *(it.name.removeprefix("is_") for it in dataclasses.fields(config.Config))]
    wrong += [] if read == [it for _, it in structs["h3_config"]] else [read]
    version, mark = re.search(r"#define H3_VERSION (\w+)", header)[1], re.search(r"#define H3_UNPROVED UINT32_C\((\w+)\)", header)[1]
    return wrong if (int(version, 16), int(mark, 16)) == (raw.VERSION, raw.UNPROVED) else [*wrong, version, mark]
