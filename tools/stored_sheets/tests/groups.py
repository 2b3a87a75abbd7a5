"""The groups of refusals are numbered as in include/pktfmt.h."""

import re
from pathlib import Path

from stored_sheets.rules.groups import Group

C_HEADER = Path(__file__).resolve().parents[3] / "include" / "pktfmt.h"


def check_groups():
    listed = re.search(r"enum pktfmt_group \{(.*?)\}", C_HEADER.read_text(), re.DOTALL)[1]
    found = re.findall(r"PKTFMT_GROUP_(\w+) = (\d+)", listed)
    assert found == [(group.name, str(group.value)) for group in Group]
