module rilqamyn

go 1.19
