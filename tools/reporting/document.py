"""The document of a run: the numbers that the program `report` prints, by docs/report.schema.json."""
import json

from runs import report_json


def read(printed):
    """The document in what the program printed, or None if there is none: a run without a stop has the beginning of
    its log in place of one."""
    if printed.startswith("{"):
        return json.loads(printed)
    return report_json.value_of(printed)


def shown(place, with_function=True):
    """A place as `server.c:8:10 take in worker`; of a log of another source as `site 8`."""
    if "file" not in place:
        return place.get("text", "an unknown place")
    function = f" in {place['function']}" if with_function and place.get("function") else ""
    return f"{at(place)} {place.get('text') or place.get('name', '')}".rstrip() + function


def at(place):
    """A place as `server.c:8:10`, which terminals and editors follow."""
    return f"{place['file']}:{place['line']}:{place['column']}" if "file" in place else place.get("text", "")


def is_semaphore(resource):
    """Whether some thread gave back more units of a resource than it took: one takes and another gives."""
    return any(it["units"] < 0 for it in resource.get("holders", ()))
