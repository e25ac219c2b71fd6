-- Views of an office's file, with names in place of codes and times in place of seconds. For a COPY of the file: nothing but
-- the program writes the file itself. docs/FILE.md has the queries.
--
--     sqlite3 look.db <examples/views.sql

DROP VIEW IF EXISTS v_units;
DROP VIEW IF EXISTS v_grants;
DROP VIEW IF EXISTS v_alarms;
DROP VIEW IF EXISTS v_shelves;
DROP VIEW IF EXISTS v_events;
DROP VIEW IF EXISTS v_matrices;
DROP VIEW IF EXISTS v_records;
DROP VIEW IF EXISTS v_changes;

-- The units, each with the moment before which it refuses every call.
CREATE VIEW v_units AS
SELECT unit,
       strftime('%Y-%m-%dT%H:%M:%SZ', last_s + 946684800, 'unixepoch') AS last,
       quota, matrix_no, matrix_rev
FROM units;

-- The roles of persons. A role is held before `until`, or for good where that is NULL.
CREATE VIEW v_grants AS
SELECT unit, person, role_no,
       CASE role_no WHEN 1 THEN 'Viewer' WHEN 2 THEN 'Operator' WHEN 3 THEN 'Maintainer'
           WHEN 4 THEN 'Engineer' WHEN 5 THEN 'Approver' WHEN 6 THEN 'Steward' END AS role,
       strftime('%Y-%m-%dT%H:%M:%SZ', end_s + 946684800, 'unixepoch') AS until
FROM grants;

-- The alarms, with the priority of those that have a record.
CREATE VIEW v_alarms AS
SELECT unit, tag, latching, max_s, max_rev,
       CASE state_no WHEN 1 THEN 'Normal' WHEN 2 THEN 'Unacknowledged' WHEN 3 THEN 'Acknowledged'
           WHEN 4 THEN 'ReturnedUnack' WHEN 5 THEN 'LatchedUnack' WHEN 6 THEN 'LatchedAck' END AS state,
       CASE cell_no WHEN 0 THEN 'N' ELSE 'P' || cell_no END AS priority,
       suppressed,
       strftime('%Y-%m-%dT%H:%M:%SZ', active_s + 946684800, 'unixepoch') AS active_since,
       strftime('%Y-%m-%dT%H:%M:%SZ', return_s + 946684800, 'unixepoch') AS last_return,
       strftime('%Y-%m-%dT%H:%M:%SZ', out_s + 946684800, 'unixepoch') AS out_since,
       out_by, out_words
FROM alarms LEFT JOIN records USING (unit, tag);

-- The last shelf of each alarm. It holds before `until`, a one-shot only while `returned` is NULL: that is the alarm's last
-- return to normal, if it came after the start.
CREATE VIEW v_shelves AS
SELECT unit, tag,
       CASE one_shot WHEN 1 THEN 'one-shot' ELSE 'timed' END AS kind,
       strftime('%Y-%m-%dT%H:%M:%SZ', start_s + 946684800, 'unixepoch') AS start,
       strftime('%Y-%m-%dT%H:%M:%SZ', until_s + 946684800, 'unixepoch') AS until,
       CASE WHEN one_shot = 1 AND return_s > start_s
           THEN strftime('%Y-%m-%dT%H:%M:%SZ', return_s + 946684800, 'unixepoch') END AS returned,
       person, words
FROM shelves JOIN alarms USING (unit, tag);

-- The events of the control system.
CREATE VIEW v_events AS
SELECT unit, seq,
       strftime('%Y-%m-%dT%H:%M:%SZ', moment_s + 946684800, 'unixepoch') AS moment,
       tag,
       CASE kind_no WHEN 1 THEN 'ACT' WHEN 2 THEN 'RTN' WHEN 3 THEN 'ACK'
           WHEN 4 THEN 'RESET' WHEN 5 THEN 'SUP' WHEN 6 THEN 'UNSUP' END AS event
FROM events;

-- The cells of all matrices: what an alarm of this severity gets whose time to respond is at least `from_s` and below
-- `below_s` seconds (NULL: without end). `in_force` is 1 for the matrix in force.
CREATE VIEW v_matrices AS
SELECT c.unit, c.matrix_no, c.matrix_no = u.matrix_no AS in_force, c.severity, c.band_no,
       coalesce(lower.limit_s, 0) AS from_s, upper.limit_s AS below_s,
       CASE c.cell_no WHEN 0 THEN 'N' ELSE 'P' || c.cell_no END AS priority
FROM cells AS c
JOIN units AS u ON u.unit = c.unit
LEFT JOIN bands AS lower ON lower.unit = c.unit AND lower.matrix_no = c.matrix_no AND lower.band_no = c.band_no - 1
LEFT JOIN bands AS upper ON upper.unit = c.unit AND upper.matrix_no = c.matrix_no AND upper.band_no = c.band_no;

-- The changes that were proposed.
CREATE VIEW v_changes AS
SELECT unit, number,
       CASE kind_no WHEN 1 THEN 'record' WHEN 2 THEN 'matrix' WHEN 3 THEN 'limit' END AS kind,
       tag, base,
       CASE state_no WHEN 1 THEN 'Proposed' WHEN 2 THEN 'Approved' WHEN 3 THEN 'Rejected' WHEN 4 THEN 'Withdrawn' END AS state,
       proposer,
       strftime('%Y-%m-%dT%H:%M:%SZ', proposed_s + 946684800, 'unixepoch') AS proposed,
       decider,
       strftime('%Y-%m-%dT%H:%M:%SZ', decided_s + 946684800, 'unixepoch') AS decided,
       cause, consequence, remedy AS action, severity, response_s, max_s
FROM changes;

-- The records in force, with what their changes say, who proposed them and who approved them.
CREATE VIEW v_records AS
SELECT r.unit, r.tag,
       CASE r.cell_no WHEN 0 THEN 'N' ELSE 'P' || r.cell_no END AS priority,
       c.severity, c.response_s, c.cause, c.consequence, c.action,
       r.rev, r.change_no, c.proposer, c.proposed, c.decider AS approver, c.decided AS approved
FROM records AS r JOIN v_changes AS c ON c.unit = r.unit AND c.number = r.change_no;
