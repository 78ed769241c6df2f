grep -nE '(==|!=) LinkedTable::NONE|\b(number|refused|stop|left) (==|!=) 0|number == Refusal::' crates/*/src/*.rt
