"""The tables of the log, and who may do what with them."""
from __future__ import annotations

PUBLISHER, FOLLOWER = "feed_publisher", "feed_follower"
CHANNEL = "feed"

# Each commit begins at the edition that an earlier one makes, and no two begin at the same one: so the rows are one list.
TABLES = """
CREATE SCHEMA feed;
CREATE TABLE feed.commits (
    begins bigint PRIMARY KEY CHECK (begins >= 0),
    edition bigint NOT NULL UNIQUE CHECK (edition > begins),
    lines text NOT NULL CHECK (lines <> ''),
    map text NOT NULL CHECK (map ~ '^[0-9a-f]{32}$'),
    publisher text NOT NULL DEFAULT session_user,
    published timestamptz NOT NULL DEFAULT clock_timestamp(),
    behind bigint GENERATED ALWAYS AS (nullif(begins, 0)) STORED REFERENCES feed.commits (edition)
);
CREATE TABLE feed.followers (
    name text PRIMARY KEY,
    server text NOT NULL,
    edition bigint,
    map text,
    fault text NOT NULL DEFAULT '',
    seen timestamptz NOT NULL DEFAULT clock_timestamp()
);
CREATE FUNCTION feed.tell() RETURNS trigger LANGUAGE plpgsql AS
    $$ BEGIN PERFORM pg_notify('feed', ''); RETURN NULL; END $$;
CREATE FUNCTION feed.keep() RETURNS trigger LANGUAGE plpgsql AS
    $$ BEGIN RAISE EXCEPTION 'rows of the log are only added'; END $$;
CREATE TRIGGER tell AFTER INSERT ON feed.commits FOR EACH STATEMENT EXECUTE FUNCTION feed.tell();
CREATE TRIGGER keep BEFORE UPDATE OR DELETE OR TRUNCATE ON feed.commits FOR EACH STATEMENT EXECUTE FUNCTION feed.keep();
COMMENT ON TABLE feed.commits IS 'a row for each commit: its desk lines, and the edition and digest of the map after it';
COMMENT ON TABLE feed.followers IS 'what each follower last said of its server';
"""

ROLE = """
DO $$ BEGIN
    IF NOT EXISTS (SELECT FROM pg_roles WHERE rolname = '{role}') THEN CREATE ROLE {role} NOLOGIN; END IF;
END $$;
"""

GRANTS = f"""
GRANT USAGE ON SCHEMA feed TO {PUBLISHER}, {FOLLOWER};
GRANT SELECT ON feed.commits, feed.followers TO {PUBLISHER}, {FOLLOWER};
GRANT INSERT (begins, edition, lines, map) ON feed.commits TO {PUBLISHER};
GRANT INSERT, UPDATE ON feed.followers TO {FOLLOWER};
"""

ALL = TABLES + "".join(ROLE.format(role=role) for role in (PUBLISHER, FOLLOWER)) + GRANTS
