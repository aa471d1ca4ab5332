"""What each code means and what to do about it: made by `tools/docs/errors.py --write`, which says where to change it."""

# By code the sentence of the error, and what to do.
ERRORS = {
    'E001': (
        'Out of memory.',
        'Give the process more memory, or check fewer files in one run.',
    ),
    'E101': (
        'The source file is not UTF-8.',
        'Save the file as UTF-8.',
    ),
    'E102': (
        'Unexpected character.',
        'Remove it, or write the number with digits of its base and no letter after it.',
    ),
    'E103': (
        'The string literal crosses a line boundary.',
        'Close the string on its line; `\\n` is a line feed.',
    ),
    'E104': (
        'The string literal has an invalid escape sequence or is not UTF-8.',
        'Use the escapes of the language, and `\\\\` for a backslash.',
    ),
    'E105': (
        'The block comment is never closed.',
        'Close it with `*/`.',
    ),
    'E106': (
        'The integer is out of range.',
        'Write a number of at most 18,446,744,073,709,551,615.',
    ),
    'E107': (
        'The number is a float, where only integers are supported.',
        'Leave it out, or gate a descriptor set.',
    ),
    'E108': (
        'The file has more than 4,194,304 bytes.',
        'Split the file.',
    ),
    'E201': (
        'The first statement is not `syntax = "proto3";`.',
        'Leave the file out (`gate.sh --skip FILE`), and gate the rest: protogate reads proto3 alone. Rewritten as proto3, the file means something else.',
    ),
    'E202': (
        'Unexpected token or end of file.',
        'Look before it for a missing `;`, name or `}`, or a misspelt keyword.',
    ),
    'E203': (
        'The group is not supported.',
        'Write a message and a field of its type.',
    ),
    'E204': (
        'The extension is not supported.',
        'Leave it out, or gate a descriptor set.',
    ),
    'E205': (
        'The custom option is not supported.',
        'Leave it out, or gate a descriptor set.',
    ),
    'E206': (
        'The weak import is not supported.',
        'Write `import`.',
    ),
    'E207': (
        'The message is nested too deep.',
        'Nest at most 64 messages.',
    ),
    'E301': (
        'The file was not found.',
        "Check the path: it counts from the side's folder (`--old-dir`, `--new-dir`, `--dir`), or from an included one (`--old-include`, `--new-include`, `--include`). Library files (`google/protobuf/..`) have to be there too; `gate.sh` finds those where they are installed, and other imports in `gate.sh --include FOLDER`.",
    ),
    'E302': (
        'The file recursively imports itself.',
        'Move what both need into a third file.',
    ),
    'E303': (
        'The import was listed twice.',
        'Remove one.',
    ),
    'E304': (
        'The name is already defined.',
        "Rename one. An enum's values are in the scope around it; a map field `foo_bar` declares `FooBarEntry`.",
    ),
    'E305': (
        'The type is not defined.',
        'Correct the name, or write it in full with a leading dot: its first part is looked up from the innermost scope outwards, and the first match is final.',
    ),
    'E306': (
        'The name is not a type.',
        'Name a message type; a field may name an enum too.',
    ),
    'E307': (
        'The type is defined in a file that is not imported.',
        'Import the file, or have the imported file import it by `import public`.',
    ),
    'E308': (
        'There are more than 1,024 files.',
        'Join files.',
    ),
    'E309': (
        'The file could not be read.',
        'Make the file readable, and run again.',
    ),
    'E401': (
        'The number of the field, value or reserved item is out of range.',
        "Take another number. A field's is from 1 to 536,870,911, and not from 19,000 to 19,999. An enum value's is an `int32`.",
    ),
    'E402': (
        'The field number has already been used in this message.',
        'Take a number that was never used.',
    ),
    'E403': (
        'The number is reserved.',
        'Take another number: a reserved one was in use once.',
    ),
    'E404': (
        'The name is reserved.',
        'Take another name.',
    ),
    'E405': (
        'The reserved range ends before it begins, or overlaps another.',
        'Write each number once, and the smaller end first.',
    ),
    'E406': (
        'The JSON name of the field conflicts with that of another field.',
        'Rename one, or give it a `json_name`.',
    ),
    'E407': (
        'Keys of map fields cannot be float, double, bytes, message or enum types.',
        'Take a key of an integer type, `bool` or `string`.',
    ),
    'E408': (
        'A oneof must have at least one field, and none that is a map, repeated or optional.',
        'Declare a field without a label. Put lists and maps next to the oneof, or into a message.',
    ),
    'E409': (
        'The first enum value must be zero in proto3.',
        'Put a value of the number 0 first, such as `E_UNSPECIFIED`.',
    ),
    'E410': (
        'The number is used by another value of the enum, which does not set allow_alias.',
        'Take another number, or state `option allow_alias = true;` in the enum.',
    ),
    'E411': (
        'The option is unknown, has a value of the wrong kind, or was already set.',
        "Give it a value of its kind, or leave it out. A descriptor set may have options that protogate doesn't know.",
    ),
    'E412': (
        '[packed = true] can only be specified for repeated primitive fields.',
        'Leave it out.',
    ),
    'E413': (
        'There are more than 4,096 message types.',
        'Check fewer files in one run.',
    ),
    'E414': (
        'Enums must contain at least one value.',
        'Give it a value of the number 0.',
    ),
    'E415': (
        'A name is not a valid identifier, or the descriptors do not fit together.',
        "Mend what made the set: source files can't break this rule.",
    ),
    'E501': (
        'The varint has more than ten bytes.',
        'Check that the bytes are whole, and a message of the type. A path without `.proto` is read as a set: make one by `protoc --include_imports --descriptor_set_out`.',
    ),
    'E502': (
        'The input ends inside the record or varint.',
        'Check that the bytes are whole, and a message of the type. A path without `.proto` is read as a set: make one by `protoc --include_imports --descriptor_set_out`.',
    ),
    'E503': (
        'The tag is invalid.',
        'Check that the bytes are whole, and a message of the type. A path without `.proto` is read as a set: make one by `protoc --include_imports --descriptor_set_out`.',
    ),
    'E504': (
        'The group is not supported.',
        'Check that the bytes are whole, and a message of the type. A path without `.proto` is read as a set: make one by `protoc --include_imports --descriptor_set_out`.',
    ),
    'E505': (
        'The tag has an unknown wire type.',
        'Check that the bytes are whole, and a message of the type. A path without `.proto` is read as a set: make one by `protoc --include_imports --descriptor_set_out`.',
    ),
    'E604': (
        'The string is not UTF-8.',
        'Check that it is a message of this type: the field may have been `bytes`.',
    ),
    'E607': (
        'The encoding has more than 2,147,483,647 bytes.',
        "Compile fewer files in one run. A message of that size can't be shown.",
    ),
    'E608': (
        'The message is nested too deep.',
        "Nest at most 100 levels: a deeper message can't be shown.",
    ),
    'E702': (
        'A file of the set is not proto3.',
        'Make the set of proto3 files alone: protogate reads no others, and leaves out `google/protobuf/descriptor.proto`.',
    ),
    'E703': (
        'A field of the set has an unsupported type or label.',
        'Leave out groups, `required` fields, and fields without a type.',
    ),
    'E704': (
        'The set has an invalid reference.',
        'Make the set with `--include_imports`.',
    ),
    'E801': (
        'The bytes are not a certificate of these schemas.',
        "Check that the sides are those of the certificate, in this order, and that its file wasn't changed.",
    ),
    'E802': (
        'The certificate has no bound for the root.',
        'Ask the gate for a certificate of these sides.',
    ),
    'E803': (
        'The certificate has no bound for a child of a pair.',
        'Ask the gate for a certificate of these sides.',
    ),
    'E804': (
        'The bound is too high: a shorter message breaks at field NUMBER by case CASE.',
        'Ask the gate anew: the certificate is forged, or a side was changed since.',
    ),
    'E805': (
        'The old writer never writes the witness.',
        'Ask the gate anew: the certificate is forged, or a side was changed since.',
    ),
    'E806': (
        'The length of the witness is not the bound of the root.',
        'Ask the gate anew: the certificate is forged, or a side was changed since.',
    ),
    'E807': (
        'The witness does not break.',
        'Ask the gate anew: the certificate is forged, or a side was changed since.',
    ),
    'E901': (
        'The old schema, or that of `show`, has no such message type.',
        'Write its full name, with its package and without a leading dot.',
    ),
    'E902': (
        'The new schema has no such message type.',
        'If the type was renamed or moved on purpose, no answer can be given for it.',
    ),
    'E905': (
        'The argument is not pairs of hexadecimal digits.',
        'Write two digits a byte, without spaces and without `0x`; `-` is no bytes.',
    ),
    'E906': (
        "The list of files isn't UTF-8.",
        'Save the list as UTF-8.',
    ),
    'E907': (
        'No file is named.',
        'Name a file of the side, or write one into each line of its list.',
    ),
}
