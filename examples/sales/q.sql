SELECT v.name, COUNT(*) AS n, SUM(v.cents) AS total,
       MAX((SELECT MAX(o.day) FROM orders AS o WHERE o.customer = v.customer)) AS latest
FROM sales AS v
WHERE v.day >= @since AND v.region = @region
GROUP BY v.name
HAVING SUM(v.cents) > 80
ORDER BY total DESC, v.name
LIMIT 10;
