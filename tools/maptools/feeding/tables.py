"""The rows of a PostGIS table or view as features of GeoJSON."""
from __future__ import annotations

import contextlib
from typing import Any, Iterator, List, Optional

from maptools.connection import Broken
from maptools.feature_stream import value_of
from maptools.feeding import database
from maptools.feeding.database import connected, first_line, is_gone

COLUMNS = """SELECT attname, typname IN ('geometry', 'geography'), quote_ident(attname) FROM pg_attribute JOIN pg_type ON pg_type.oid = atttypid
    WHERE attrelid = %s::regclass AND attnum > 0 AND NOT attisdropped ORDER BY attnum"""
KEY = """SELECT quote_ident(attname) FROM pg_index JOIN pg_attribute ON attrelid = indrelid AND attnum = ANY (indkey)
    WHERE indrelid = %s::regclass AND indisprimary"""
# (the geometry is no property: as one it would be written twice)
FEATURES = """SELECT json_build_object('type', 'Feature', 'id', {key},
    'geometry', ST_AsGeoJSON(ST_Transform({geometry}::geometry, 4326), 15)::json,
    'properties', (SELECT to_jsonb(properties) FROM (SELECT {properties}) AS properties))::text
    FROM {table} AS row_of_table ORDER BY {order}"""
# So many rows are fetched at once.
ROWS = 500


class Table:
    """A table or a view, over a connection of its own; Broken where it is none, or has no one geometry."""

    def __init__(self, url: str, name: str, geometry: Optional[str]) -> None:
        self.connection = connected(url)
        try:
            self.run("SET TIME ZONE 'UTC'")
            self.statement = self.statement_for(name, geometry)
        except database.psycopg2.Error as error:
            self.close()
            if is_gone(error):
                raise
            raise Broken(first_line(error)) from None

    def close(self) -> None:
        """Ends the connection."""
        with contextlib.suppress(Exception):
            self.connection.close()

    def run(self, statement: str, *values: Any) -> List[Any]:
        """The rows of a statement."""
        with self.connection.cursor() as cursor:
            cursor.execute(statement, values)
            return cursor.fetchall() if cursor.description else []

    def statement_for(self, name: str, geometry: Optional[str]) -> str:
        """The statement that gives the rows as features."""
        columns = self.run(COLUMNS, name)
        places = [column for column in columns if column[1] and geometry in (None, column[0])]
        if len(places) != 1:
            have = ", ".join(column[0] for column in columns if column[1]) or "none"
            what = f"the geometries {have}: name one with --geometry" if geometry is None else f"no geometry {geometry}: it has {have}"
            raise Broken(f"{name} has {what}")
        keys = self.run(KEY, name)
        key = f"row_of_table.{keys[0][0]}" if len(keys) == 1 else "NULL"
        properties = ", ".join(f"row_of_table.{column[2]}" for column in columns if not column[1])
        table = self.run("SELECT %s::regclass::text", name)[0][0]
        order, place = key if len(keys) == 1 else "row_of_table::text", f"row_of_table.{places[0][2]}"
        return FEATURES.format(key=key, order=order, geometry=place, properties=properties, table=table)

    def features(self) -> Iterator[Any]:
        """The rows as features, all of one moment; Broken where a geometry cannot be written in WGS 84."""
        try:
            with self.connection.cursor("features", withhold=True) as cursor:
                cursor.itersize = ROWS
                cursor.execute(self.statement)
                for (text,) in cursor:
                    yield value_of(text.encode())
        except database.psycopg2.Error as error:
            if is_gone(error):
                raise
            raise Broken(first_line(error)) from None
