-- The prices of all entries in the table `answer(line)` as exact decimals: a mantissa and an exponent below 0 become a text.
with price(m, e) as (
    select value ->> '$.fields.price.mantissa', value ->> '$.fields.price.exponent'
    from answer, json_each(line, '$.groups.entries')
),
padded(m, e, z) as (
    select m, e, printf('%0' || (1 - e) || 'd', 0) || ltrim(m, '-') from price
)
select iif(m < 0, '-', '') || coalesce(nullif(ltrim(substr(z, 1, length(z) + e), '0'), ''), '0') || '.' || substr(z, e)
from padded
where m is not null;
