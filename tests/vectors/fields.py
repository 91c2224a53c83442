#!/usr/bin/env python3
"""fields.py: writes the files stdin and stdout of crates/image_vectors, from the vectors beside it.

stdin is the streams *.bin, one after the other in the order of their names. stdout is what the field readers have to give: the numbers of the
texts *.txt, in the order of document 01's fields, one line an entry. They were written with the streams by Linux's own driver code; no number
here is read out of a stream or out of what the program prints. A field that a text leaves out is 0; a text without a line of 0D has no such table.
Run it in this folder: python3 fields.py
"""
import glob

# Document 01's fields of each table, in its order; 11 and 4E have none that is used.
FIELDS = {
    "05": ["vlanid", "macaddr", "destports", "enfport", "index"],
    "06": ["sharindx", "smax", "rate", "maxlen", "partition"],
    "07": ["vmemb_port", "vlan_bc", "tag_port", "vlanid"],
    "08": ["bc_domain", "reach_port", "fl_domain", "vlan_pmap"],
    "09": ["vlanprio", "vlanid", "drpuntag", "egress", "ingress"],
    "0D": ["shared_learn"],
    "0E": ["part_spc"],
    "11": [],
    "4E": [],
}
LISTS = {"vlan_pmap", "part_spc"}  # eight numbers each


def shown(name, told):
    if name in LISTS:
        return told.get(name, "0,0,0,0,0,0,0,0").split(",")
    number = int(told.get(name, "0"), 0)
    return ["%012x" % number if name == "macaddr" else "%d" % number]


def lines_of(text):
    entries, device = {table: [] for table in FIELDS}, None
    for line in text.splitlines():
        words = line.split("#")[0].split()
        if not words:
            continue
        if words[0] == "device":
            device = words[1].lower()
            continue
        table, told = words[0], dict(word.split("=") for word in words[1:])
        numbers = [number for name in FIELDS[table] for number in shown(name, told)]
        entries[table].append(" ".join([table, str(len(entries[table]))] + numbers))
    entries["0D"] = entries["0D"] or ["0D absent 0"]
    return ["device " + device] + [line for table in FIELDS for line in entries[table]]


texts = sorted(glob.glob("*.txt"))
crate = "../../crates/image_vectors/"
with open(crate + "stdin", "wb") as f:
    for name in texts:
        f.write(open(name[:-4] + ".bin", "rb").read())
with open(crate + "stdout", "w") as f:
    for name in texts:
        f.write("\n".join(lines_of(open(name).read())) + "\n")
