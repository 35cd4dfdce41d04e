"""A table of 500 districts that is edited by SQL: what changed, and nothing else, arrives at each server."""
import signal
import subprocess
import time

from fleet import DATABASE, FEED, PUBLISHER
from publisher import edition_of_log

COUNT, ACROSS = 500, 25
ARRIVES = 2.0
PATIENCE = 60.0
WORDS = [
    "districts", "--source", "county.example", "--service", "urn:service:sos.ambulance", "--updated", "now", "--source-id", "{code}",
    "--uri", "sip:{code}@county.example", "--display", "en={name}", "--publish", "--follow", "districts",
]
TABLE = f"""SET client_min_messages = error;
CREATE EXTENSION IF NOT EXISTS postgis;
CREATE TABLE districts (code text PRIMARY KEY, name text NOT NULL, edited timestamptz NOT NULL DEFAULT now(), area geometry(Polygon, 4326));
CREATE FUNCTION districts_tell() RETURNS trigger LANGUAGE plpgsql AS $$ BEGIN NOTIFY districts; RETURN NULL; END $$;
CREATE TRIGGER tell AFTER INSERT OR UPDATE OR DELETE OR TRUNCATE ON districts FOR EACH STATEMENT EXECUTE FUNCTION districts_tell();
INSERT INTO districts (code, name, area) SELECT 'd' || i, 'District ' || i,
    ST_MakeEnvelope(30 + i % {ACROSS}, 30 + i / {ACROSS}, 31 + i % {ACROSS}, 31 + i / {ACROSS}, 4326) FROM generate_series(0, {COUNT - 1}) AS i;
GRANT SELECT ON districts TO {PUBLISHER};"""
# An edge between two districts moves: both change.
EDGE = """UPDATE districts SET area = ST_MakeEnvelope(30, 30, 31.25, 31, 4326) WHERE code = 'd0';
UPDATE districts SET area = ST_MakeEnvelope(31.25, 30, 32, 31, 4326) WHERE code = 'd1';"""
EDITS = {
    "a moved edge": (f"BEGIN; {EDGE} COMMIT;", 2),
    "a new row": ("INSERT INTO districts (code, name, area) VALUES ('new', 'New', ST_MakeEnvelope(10, 10, 11, 11, 4326))", 1),
    "a deleted row": ("DELETE FROM districts WHERE code = 'd7'", 1),
    "a changed name": ("UPDATE districts SET name = 'Other' WHERE code = 'd8'", 1),
    "nothing but a time": ("UPDATE districts SET edited = now()", 0),
    "all of these at once": (
        """BEGIN; UPDATE districts SET area = ST_MakeEnvelope(30, 30, 31.5, 31, 4326) WHERE code = 'd0';
        UPDATE districts SET area = ST_MakeEnvelope(31.5, 30, 32, 31, 4326) WHERE code = 'd1'; DELETE FROM districts WHERE code = 'd9';
        INSERT INTO districts (code, name, area) VALUES ('newer', 'Newer', ST_MakeEnvelope(12, 10, 13, 11, 4326));
        UPDATE districts SET name = 'Another', edited = now() WHERE code = 'd10'; COMMIT;""", 5,
    ),
}  # fmt: skip


def arrival(fleet, edition):
    """Waits until each server has an edition; how long that took, or None where it took too long."""
    begun = time.monotonic()
    while time.monotonic() - begun < PATIENCE:
        if all((one.standing() or (0,))[0] >= edition for one in fleet.members):
            return time.monotonic() - begun
        time.sleep(0.02)
    return None


def edit_districts(fleet):
    """Edits the table; what was wrong."""
    wrong, log, primary = [], fleet.database.url(PUBLISHER), fleet.database.primary
    primary.sql(DATABASE, TABLE)
    edition = edition_of_log(log) + COUNT
    words = [FEED.replace("lost-feed", "postgis-to-desk"), *WORDS, "--log", log, "--lostd", fleet.program, "--state", f"{fleet.folder}/state-of-table"]
    with open(f"{fleet.folder}/table.said", "ab") as said, subprocess.Popen(words, stdout=said, stderr=said) as process:
        try:
            if arrival(fleet, edition) is None:
                wrong.append("the districts did not arrive")
            for what, (statements, edits) in EDITS.items():
                time.sleep(1.5)
                primary.sql(DATABASE, statements)
                passed = arrival(fleet, edition + edits) if edits else time.sleep(ARRIVES)
                edition += edits
                held = {(one.standing() or (0,))[0] for one in fleet.members}
                print(f"    {what}: {edits} edits" + (f", everywhere after {passed:.2f} seconds" if edits and passed else ""), flush=True)
                wrong += [] if held == {edition} else [f"{what}: the servers are at {sorted(held)}, and {edition} is wanted"]
                wrong += [] if not edits or (passed is not None and passed <= ARRIVES) else [f"{what}: it took {passed} seconds"]
        finally:
            process.send_signal(signal.SIGTERM)
    return wrong
