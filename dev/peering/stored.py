"""The numbers of dev/peers in a file, as JSON."""
import json


def text_of(told, found):
    """The numbers as JSON, a line for each row of a table."""
    jobs = []
    for (task, number, stack), rows in found.items():
        lines = [f"    {json.dumps(name)}: {json.dumps(results)}" for name, results in rows.items()]
        head = f'  {{"task": {json.dumps(task)}, "number": {number}, "stack_kib": {stack}, "rows": {{'
        jobs.append(head + "\n" + ",\n".join(lines) + "}}")
    return f'{{"machine": {json.dumps(told)}, "jobs": [\n' + ",\n".join(jobs) + "\n]}\n"


def stored(file):
    """The machine and the numbers of such a file."""
    value = json.loads(file.read_text())
    return value["machine"], {(it["task"], it["number"], it["stack_kib"]): it["rows"] for it in value["jobs"]}
