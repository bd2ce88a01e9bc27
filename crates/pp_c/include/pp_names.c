/* What the numbers of pp.h are called. libpp.a and libpp.so.1 have these calls, and ./install compiles them; a program that
 * links libpp_c.a compiles this file itself, as C or C++, if it calls one. The names and sentences are those of pp_lexer. */
#include "pp.h"

#define LENGTH(list) (sizeof(list) / sizeof *(list))

static const char *const kinds[] = {
    "Error", "Place", "Ident", "Integer", "Float", "Version", "Extension", "Pragma", "NewLine", "Hash",
    "IncludeLine"
};

static const char *const punctuators[] = {
    "AddAssign", "SubAssign", "MulAssign", "DivAssign", "ModAssign", "LeftShiftAssign", "RightShiftAssign",
    "AndAssign", "XorAssign", "OrAssign", "Increment", "Decrement", "LogicalAnd", "LogicalOr", "LogicalXor",
    "LessEqual", "GreaterEqual", "EqualEqual", "NotEqual", "LeftShift", "RightShift", "LeftBrace", "RightBrace",
    "LeftParen", "RightParen", "LeftBracket", "RightBracket", "LeftAngle", "RightAngle", "Semicolon", "Comma",
    "Colon", "Dot", "Equal", "Bang", "Minus", "Tilde", "Plus", "Star", "Slash", "Percent", "Pipe", "Caret",
    "Ampersand", "Question"
};

static const char *const errors[] = {
    "IntegerOverflow", "FloatParsingError", "UnexpectedCharacter", "UnexpectedToken", "UnexpectedHash",
    "UnexpectedNewLine", "UnexpectedEndOfInput", "TooFewDefineArguments", "TooManyDefineArguments",
    "ErrorDirective", "DuplicateParameter", "UnknownDirective", "DefineRedefined", "ElifOutsideOfBlock",
    "ElseOutsideOfBlock", "EndifOutsideOfBlock", "ElifAfterElse", "MoreThanOneElse", "UnfinishedBlock",
    "LineOverflow", "NotSupported16BitLiteral", "NotSupported64BitLiteral", "MacroNotDefined",
    "RecursionLimitReached", "DivisionByZero", "RemainderByZero"
};

static const char *const sentences[] = {
    "malformed or out-of-range integer", "malformed number", "unexpected character", "unexpected token",
    "unexpected `#`", "unexpected end of line", "unterminated macro call or incomplete expression",
    "too few arguments in macro call", "too many arguments in macro call", "`#error` directive",
    "duplicate macro parameter", "unknown directive", "macro redefined", "`#elif` without `#if`",
    "`#else` without `#if`", "`#endif` without `#if`", "`#elif` after `#else`", "`#else` after `#else`",
    "block without `#endif`", "line number out of range", "16-bit literals are not supported",
    "64-bit literals are not supported", "undefined macro", "too many nested macro calls", "division by zero",
    "remainder by zero"
};

const char *pp_kind_name(uint32_t kind) {
    if (kind < LENGTH(kinds)) return kinds[kind];
    if (kind >= PP_ADD_ASSIGN && kind - PP_ADD_ASSIGN < LENGTH(punctuators)) return punctuators[kind - PP_ADD_ASSIGN];
    return "";
}

const char *pp_error_name(uint32_t error) {
    return error - 1 < LENGTH(errors) ? errors[error - 1] : "";
}

const char *pp_error_sentence(uint32_t error) {
    return error - 1 < LENGTH(sentences) ? sentences[error - 1] : "";
}
