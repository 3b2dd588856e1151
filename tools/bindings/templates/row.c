static const call {symbol} = {"{name}", {count}, {{names}}, "{shapes}", {of_numbers},
    {divides}, {forms}, {of_parts}};

