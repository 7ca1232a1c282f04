module macaroond

go 1.19
