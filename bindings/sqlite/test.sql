.load target/sqlite/rilvostam_sqlite
.nullvalue NULL
.separator |
SELECT rilvostam_number('一万五'), rilvostam_number('一万零五'), rilvostam_number('十十'), rilvostam_number(''), rilvostam_number(NULL);
SELECT rilvostam_write(10010000), rilvostam_write(0), rilvostam_write(NULL), rilvostam_number(rilvostam_write(9007199254740991));
SELECT * FROM rilvostam_edges('百分之五');
SELECT txt, numerator, denominator FROM rilvostam_edges('三分之一') WHERE active;
SELECT txt, value, decimals FROM rilvostam_edges_with_decimals('一.五');
SELECT txt, value, decimals FROM rilvostam_edges('一.五');
SELECT r.line, sum(e.value) FROM (SELECT '甲五' AS line UNION ALL SELECT '二千') AS r, rilvostam_edges(r.line) AS e WHERE e.active GROUP BY r.line ORDER BY 2;
SELECT count(*) FROM rilvostam_edges(NULL);
SELECT value, start, "end" FROM rilvostam_numbers('一万五');
SELECT value, start, "end" FROM rilvostam_numbers('墓三号x二十');
SELECT txt, numerator, denominator FROM rilvostam_numbers('三分之一');
SELECT r.line, count(e.start) FROM (SELECT '百分之五' AS line UNION ALL SELECT '-五') AS r LEFT JOIN rilvostam_numbers(r.line) AS e GROUP BY r.line ORDER BY 2;
SELECT count(*) FROM rilvostam_numbers(NULL);
SELECT rilvostam_number('九九九九九九九九九九九九九九九九九');
SELECT rilvostam_number(CAST(x'E4BAFF' AS TEXT));
SELECT rilvostam_write(9007199254740992);
SELECT rilvostam_write(-1);
SELECT rilvostam_write('五');
SELECT count(*) FROM rilvostam_edges(CAST(x'FF' AS TEXT));
SELECT count(*) FROM rilvostam_numbers(CAST(x'FF' AS TEXT));
SELECT count(*) FROM rilvostam_edges;
