"""What Prometheus makes of /metrics, and when the alerts of packaging/alerts.yml fire, by Prometheus' own promtool."""
import json
import re
import shutil
import subprocess
import time

import pytest

from support.lasting import lasting
from support.plain import metrics
from support.waiting import until

# promtool takes less than a second on an idle machine, and many on a busy one.
pytestmark = [pytest.mark.skipif(not shutil.which("promtool"), reason="there is no promtool"), pytest.mark.timeout(300)]

EXPECTED = 60
# It has names that are escaped, a small history, a service that is reported, and an expectation.
SCRIPT = ("catalogue db quote\"d back\\slash -\nmax 8\nregister db threshold 1\nregister quote\"d manual\nregister - depends db\n"
          f"expect db {EXPECTED}\n")
PLAIN = ("--plain", "127.0.0.1:0")
# How many changes were refused by each cause, after more reports than there is room for.
REFUSED = {"bad rule": 1, "full": 1, "no memory": 0, "not listed": 1, "not stored": 0}


def promtool(*words, given=""):
    """Its exit status, and all that it says."""
    ran = subprocess.run(["promtool", *words], input=given, capture_output=True, text=True)
    return ran.returncode, (ran.stdout + ran.stderr).strip()


def numbers(text):
    """The number of each series of /metrics, by its name with its labels."""
    lines = [line.rpartition(" ") for line in text.splitlines() if not line.startswith("#")]
    return {series: float(number) for series, _, number in lines}


# What a server tells Prometheus.

@pytest.fixture(scope="module")
def text(program):
    """What one tells that was told nothing since its start."""
    with lasting(program, *PLAIN, script=SCRIPT) as server:
        return metrics(server.plain)


def test_promtool_has_nothing_to_say_of_the_metrics_at_the_start(text):
    assert promtool("check", "metrics", given=text) == (0, "")


@pytest.mark.parametrize("series, number", [
    pytest.param('healthd_last_report_timestamp_seconds{service="db"}', 0, id="a service that was not reported has no time"),
    pytest.param('healthd_expected_seconds{service="db"}', EXPECTED, id="it is expected"),
    pytest.param('healthd_expected_seconds{service="-"}', 0, id="another is not"),
    pytest.param("healthd_journal_writable", 1, id="a journal that is none is writable"),
])
def test_at_the_start_it_has_these_numbers(text, series, number):
    assert numbers(text)[series] == number


def test_it_has_the_version_of_the_program(program, text):
    version = program.run("--version").stdout.split()[1]
    assert numbers(text)[f'healthd_build_info{{version="{version}"}}'] == 1


def test_it_has_refused_nothing_at_the_start(text):
    assert [number for series, number in numbers(text).items() if "refused" in series] == [0] * 6


def test_no_label_is_empty(text):
    assert [series for series in numbers(text) if '=""' in series] == []


def test_the_times_of_a_start_and_a_report_are_told_and_what_was_refused_is_counted_by_its_cause(start):
    began = int(time.time())
    server = start(*PLAIN, script=SCRIPT)
    assert began <= numbers(metrics(server.plain))["healthd_start_time_seconds"] <= time.time()
    reported = int(time.time())
    assert server.tell("pass", "db") == ("done", 0)
    until(lambda: numbers(metrics(server.plain))['healthd_last_report_timestamp_seconds{service="db"}'] >= reported, True)
    assert server.tell("register", "-", "depends", "-")[0] == "refused bad rule"
    assert server.tell("up", "nobody")[0] == "refused not listed"
    for _ in range(5):
        server.tell("pass", "db")
    until(lambda: {cause: numbers(metrics(server.plain))[f'healthd_refused_total{{cause="{cause}"}}'] for cause in REFUSED}, REFUSED)
    assert promtool("check", "metrics", given=metrics(server.plain)) == (0, "")


# When each alert fires. Of each series a number comes every 15 seconds.

EVERY = 15
MINUTES = 30
COUNT = MINUTES * 60 // EVERY + 1


def at_each(number_at):
    """The numbers that this makes of each time, in seconds."""
    return [number_at(place * EVERY) for place in range(COUNT)]


def reports_until(end):
    """A checker that reports every 15 seconds, up to a time."""
    return {'healthd_last_report_timestamp_seconds{service="db"}': at_each(lambda now: min(now, end)),
            "healthd_expired_total": at_each(lambda now: now > end + EXPECTED)}


ALWAYS = reports_until(MINUTES * 60)
WHOLE, ONE = 'healthd_service_status{service="-"}', 'healthd_service_status{service="db"}'
TARGET = {"job": "healthd", "instance": "web:8081"}
LABELED = {**TARGET, "service": "web"}
# The labels of a target, what is other than in a server that is well (None: it is no target), and the alerts that fire then, by minute.
ALERTS = {
    "a server that is well": (TARGET, ALWAYS, {1: [], 10: [], 29: []}),
    "a server that does not answer": (TARGET, {**ALWAYS, "up": 0}, {10: ["HealthdGone"]}),
    "a server that is no target": (TARGET, None, {10: ["HealthdGone"]}),
    "a server that does not serve": (TARGET, {**ALWAYS, WHOLE: 0}, {10: ["HealthdNotServing"]}),
    "a server that is absent": (TARGET, {**ALWAYS, WHOLE: -1}, {10: ["HealthdNotServing"]}),
    "one whose target has a label `service`": (LABELED, {**ALWAYS, WHOLE: 0}, {10: ["HealthdNotServing"]}),
    "one service that does not serve": (TARGET, {**ALWAYS, ONE: 0}, {10: []}),
    "a journal that is not written": (
        TARGET, {**ALWAYS, "healthd_journal_writable": at_each(lambda now: now < 300)},
        {4: [], 10: ["HealthdJournalNotWritable"], 29: ["HealthdJournalNotWritable"]}),
    "a checker that is silent": (
        TARGET, reports_until(300),
        {5: [], 8: ["HealthdCheckerSilent", "HealthdExpired"], 15: ["HealthdCheckerSilent"], 29: ["HealthdCheckerSilent"]}),
    "a checker that is silent, of a target with a label `service`": (LABELED, reports_until(300), {15: ["HealthdCheckerSilent"]}),
    "a checker that never reports": (TARGET, {"healthd_start_time_seconds": 0}, {1: [], 2: [], 4: ["HealthdCheckerSilent"]}),
    "a checker that is not expected": (
        TARGET, {**reports_until(0), 'healthd_expected_seconds{service="db"}': 0, "healthd_expired_total": 0}, {15: []}),
    "changes that are refused": (
        TARGET, {**ALWAYS, 'healthd_refused_total{cause="not stored"}': at_each(lambda now: now > 300)},
        {5: [], 8: ["HealthdChangesRefused"], 15: []}),
    "changes that nobody may ask for": (TARGET, {**ALWAYS, 'healthd_refused_total{cause="bad rule"}': at_each(lambda now: now)}, {8: []}),
    "Watches that find no place": (
        TARGET, {**ALWAYS, "healthd_watches_refused_total": at_each(lambda now: now > 300)}, {5: [], 8: ["HealthdWatchesRefused"], 15: []}),
}


def series_of(text, labels, changes):
    """What Prometheus has of a server that has run for an hour: its own numbers but for these changes, with the target's labels."""
    for name, value in {**numbers(text), "up": 1, "healthd_start_time_seconds": -3600, **changes}.items():
        bare, _, inside = name.rstrip("}").partition("{")
        if "service" in labels:
            inside = inside.replace("service=", "exported_service=")
        told = ",".join(filter(None, [inside, *(f'{key}="{of}"' for key, of in labels.items())]))
        values = value if isinstance(value, list) else [value] * COUNT
        yield {"series": f"{bare}{{{told}}}", "values": " ".join(f"{one:g}" for one in values)}


@pytest.fixture
def rules(sources):
    return sources / "packaging/alerts.yml"


def test_promtool_takes_the_rules(rules):
    status, said = promtool("check", "rules", str(rules))
    assert status == 0 and "SUCCESS: 7 rules" in said


@pytest.mark.parametrize("labels, changes, alerts", ALERTS.values(), ids=ALERTS)
def test_these_alerts_fire_for(text, rules, folder, labels, changes, alerts):
    names = re.findall(r"(?m)^ *- alert: (\w+)$", rules.read_text(encoding="utf-8"))
    wanted = [{"eval_time": f"{minute}m", "alertname": name, "exp_alerts": []} for minute in alerts for name in names]
    series = [] if changes is None else list(series_of(text, labels, changes))
    with open(f"{folder}/test.yml", "w", encoding="utf-8") as file:
        json.dump({"rule_files": [str(rules)], "evaluation_interval": f"{EVERY}s",
                   "tests": [{"interval": f"{EVERY}s", "input_series": series, "alert_rule_test": wanted}]}, file)
    status, said = promtool("test", "rules", f"{folder}/test.yml")
    fired = re.findall(r"alertname: (\w+), time: (\d+)m", said)
    assert (status == 0) == (fired == []), said
    assert {minute: sorted(name for name, at in fired if at == str(minute)) for minute in alerts} == alerts
