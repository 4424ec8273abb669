# A calculator with one number: each line has an operator and a number. An = writes what there is, C sets it, and a $ ends the run.
define DOLLAR 36
define PERCENT 37
define STAR 42
define PLUS 43
define MINUS 45
define SLASH 47
define EQUALS 61
define CLEAR 67
define CARET 94
procedure
integer operator, operand, value
value = 0
repeat {
    read( , operator:c, operand:i(6))
    switch (operator) {
        case DOLLAR: break 2
        case PLUS: value += operand
        case MINUS: value -= operand
        case STAR: value *= operand
        case CARET: value **= operand
        case CLEAR: value = operand
        case EQUALS: write( , value:i(11))
        case SLASH, PERCENT:
            if (operand == 0) {
                write( , operator:c, ' by zero')
                next
            }
            if (operator == SLASH) value /= operand
            else value = mod(value, operand)
        default: write( , 'what is ', operator:c, '?')
    }
}
write( , value:i(11), ' at the end')
end
