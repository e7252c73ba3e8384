create table rows (
    path String, died Nullable(String), signature Nullable(String), reason Nullable(String), time Nullable(Float64),
    functions Array(String), zones_bad Nullable(UInt32), corrected Nullable(UInt32), fault Nullable(String)
) engine = MergeTree order by path
