module service

go 1.19

require macaroond v0.1.0

replace macaroond => ../../clients/go
