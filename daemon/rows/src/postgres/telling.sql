CREATE UNLOGGED TABLE fochillun.hearers (process integer PRIMARY KEY, channel text NOT NULL);

CREATE FUNCTION fochillun.hear_cells() RETURNS text
LANGUAGE plpgsql SECURITY DEFINER SET search_path = pg_catalog AS $$
DECLARE word text := 'fochillun_' || replace(gen_random_uuid()::text, '-', '');
BEGIN
    DELETE FROM fochillun.hearers WHERE process = pg_backend_pid()
        OR NOT EXISTS (SELECT FROM pg_stat_activity WHERE pid = process);
    IF (SELECT count(*) >= 16 FROM fochillun.hearers) THEN RETURN NULL; END IF;
    INSERT INTO fochillun.hearers VALUES (pg_backend_pid(), word);
    EXECUTE format('LISTEN %I', word);
    RETURN word;
END $$;

CREATE FUNCTION fochillun.tell_cells(of_row text, first bigint, last bigint, but text) RETURNS void
LANGUAGE plpgsql SECURITY DEFINER SET search_path = pg_catalog AS $$
BEGIN
    PERFORM pg_notify(channel, concat_ws(' ', row, number, CASE WHEN octet_length(encode(text, 'escape')) <= 7800
            AND current_setting('synchronous_standby_names') = '' AND pg_notification_queue_usage() < 0.01
            THEN '=' || encode(text, 'escape') END))
        FROM fochillun.hearers, fochillun.cells
        WHERE row = of_row AND number BETWEEN first AND least(last, first + 99) AND channel <> but
        ORDER BY number;
    PERFORM pg_notify('fochillun', concat_ws(' ', of_row, last));
END $$;

REVOKE EXECUTE ON FUNCTION fochillun.hear_cells, fochillun.tell_cells FROM PUBLIC;
