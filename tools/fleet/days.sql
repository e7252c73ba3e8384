select
    if(time < 86400, '1970-01-01', toString(toDate(toDateTime(assumeNotNull(time), 'UTC'), 'UTC'))) as day,
    toUInt32(count()) as count, signature
from rows
where signature is not null and time between 0 and 4000000000
group by day, signature
order by day, count desc, signature
