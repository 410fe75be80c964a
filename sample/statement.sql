SELECT c.name, o.id, o.amount
FROM customers c LEFT JOIN orders o ON o.customer = c.id AND o.amount >= 10
WHERE c.region = 2 OR c.region IS NULL
ORDER BY o.amount DESC NULLS LAST, c.name
