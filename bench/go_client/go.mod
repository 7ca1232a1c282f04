module go_client

go 1.19

require macaroond v0.1.0

replace macaroond => ../../clients/go
