module cosegate

go 1.18
