"""What bpfrec live --status serves."""

import json
import re
import urllib.request

from support import present


def asked(address: str, name: str = "status.json") -> bytes:
    with urllib.request.urlopen(f"{address}{name}", timeout=5) as answer:
        return answer.read()


def status_of(address: str) -> dict:
    return json.loads(asked(address))


def address_in(told: str) -> str:
    return present(re.search(r"status: (http://[0-9.:]+/)", told))[1]
