// From here on: not the original's text. Its private functions, its `assemble` without the files, and what document 01 adds beside it.

pub mod private {
    pub fn tokenize(source: &str) -> Result<Vec<String>, String> {
        super::tokenize(source)
    }

    pub fn find_function(source: &str) -> Result<(Vec<String>, String), String> {
        super::find_function(source)
    }

    pub fn json_u64_for_key(json: &str, key: &str) -> Result<u64, String> {
        super::json_u64_for_key(json, key)
    }
}

pub enum Assembled {
    Made {
        text: String,
        k: u64,
        p: u64,
        value: u64,
    },
    /// The original's message; the key's place or the line, which the original doesn't give, else 0.
    Refused {
        message: String,
        carried: u64,
    },
    /// An added refusal of document 01: the original has no such answer.
    Added {
        number: u64,
        carried: u64,
    },
}

pub fn assemble_text(contract: &[u8], vector: &[u8], stem: &[u8]) -> Assembled {
    steps(contract, vector, stem).unwrap_or_else(|refusal| refusal)
}

fn refused(carried: u64) -> impl Fn(String) -> Assembled {
    move |message| Assembled::Refused { message, carried }
}

fn added<T>(number: u64, carried: u64) -> Result<T, Assembled> {
    Err(Assembled::Added { number, carried })
}

fn steps(contract: &[u8], vector: &[u8], stem: &[u8]) -> Result<Assembled, Assembled> {
    if contract.len() > 65_536 {
        return added(1, 0);
    }
    let utf8 = "stream did not contain valid UTF-8";
    let source = std::str::from_utf8(contract).map_err(|_| refused(0)(format!("cannot read contract: {utf8}")))?;
    if vector.len() > 65_536 {
        return added(2, 0);
    }
    let vector_json = std::str::from_utf8(vector).map_err(|_| refused(0)(format!("cannot read vector: {utf8}")))?;
    let (params, body) = find_function(source).map_err(refused(0))?;
    let expected = json_u64_for_key(vector_json, "expected").map_err(refused(0))?;
    let mut env = HashMap::new();
    let mut bindings = 0;
    for param in params {
        let value = json_u64_for_key(vector_json, &param).map_err(refused(bindings + 1))?;
        env.insert(param, vec![format!("Push {value}")]);
        bindings += 1;
        if bindings == 257 {
            return added(21, 0);
        }
    }
    let mut final_ops: Option<Vec<String>> = None;
    for (n, line) in body.lines().enumerate() {
        let n = n as u64 + 1;
        let line = line.trim();
        if line.is_empty() || line.starts_with("//") {
            continue;
        }
        if let Some(rest) = line.strip_prefix("let ") {
            let eq = rest.find('=').ok_or_else(|| refused(n)(format!("invalid let statement: {line}")))?;
            let ops = expression(rest[eq + 1..].trim(), &env, n, "expression", line)?;
            env.insert(rest[..eq].trim().to_string(), ops);
            bindings += 1;
            if bindings == 257 {
                return added(21, 0);
            }
        } else if let Some(expr) = line.strip_prefix("return ") {
            final_ops = Some(expression(expr.trim(), &env, n, "return expression", line)?);
        }
    }
    let mut ops = final_ops.ok_or_else(|| refused(0)("no return statement in EXEC-GATE subset".to_string()))?;
    ops.push("Halt".to_string());
    simulate(&ops, expected).map_err(refused(0))?;
    let stem = std::str::from_utf8(stem).ok().filter(|s| !s.is_empty());
    let stem = stem.ok_or_else(|| refused(0)("invalid contract filename".to_string()))?;
    if stem.len() > 255 || stem.contains('\n') {
        return added(25, 0);
    }
    let mut text = format!("# contract: {stem}\n# expected: {expected}\n");
    for op in &ops {
        text.push_str(op);
        text.push('\n');
    }
    let (mut items, mut p) = (0u64, 0);
    for op in &ops[..ops.len() - 1] {
        items = if op.starts_with("Push ") { items + 1 } else { items - 1 };
        p = p.max(items);
    }
    Ok(Assembled::Made { text, k: pushes(&ops), p, value: expected })
}

fn pushes(ops: &[String]) -> u64 {
    ops.iter().filter(|op| op.starts_with("Push ")).count() as u64
}

fn expression(text: &str, env: &HashMap<String, Vec<String>>, n: u64, what: &str, line: &str) -> Result<Vec<String>, Assembled> {
    let tokens = tokenize(text).map_err(refused(n))?;
    if opens_65(&tokens, env) {
        return added(18, n);
    }
    // so large an expression would fill the memory, and is beyond 20 by far unless it is refused
    if tokens.iter().map(|t| env.get(t).map_or(1, Vec::len)).sum::<usize>() > 2_000_000 {
        return added(0, n);
    }
    let mut parser = Parser::new(tokens, env.clone());
    let ops = parser.expr().map_err(refused(n))?;
    if parser.peek().is_some() {
        return Err(refused(n)(format!("unconsumed {what} tokens in: {line}")));
    }
    if pushes(&ops) > 32_768 {
        return added(20, n);
    }
    Ok(ops)
}

// Whether a 65th parenthesis is open before anything else is refused.
fn opens_65(tokens: &[String], env: &HashMap<String, Vec<String>>) -> bool {
    let (mut open, mut factor_due) = (0, true);
    for t in tokens {
        if factor_due && t == "(" {
            open += 1;
            if open == 65 {
                return true;
            }
        } else if factor_due {
            let literal = t.bytes().all(|b| b.is_ascii_digit());
            if literal && t.parse::<u64>().is_err() || !literal && !env.contains_key(t) {
                return false;
            }
            factor_due = false;
        } else if matches!(t.as_str(), "+" | "-" | "*" | "/") {
            factor_due = true;
        } else if t == ")" && open > 0 {
            open -= 1;
        } else {
            return false;
        }
    }
    false
}

/// The original's `assemble` and no more, without the files: what bench/ times.
pub fn assemble_plain(contract: &[u8], vector: &[u8], stem: &str) -> Result<String, String> {
    let source = std::str::from_utf8(contract).map_err(|_| "cannot read contract: stream did not contain valid UTF-8".to_string())?;
    let vector_json = std::str::from_utf8(vector).map_err(|_| "cannot read vector: stream did not contain valid UTF-8".to_string())?;
    let (params, body) = find_function(source)?;
    let expected = json_u64_for_key(vector_json, "expected")?;
    let mut env = HashMap::new();
    for param in params {
        let value = json_u64_for_key(vector_json, &param)?;
        env.insert(param, vec![format!("Push {value}")]);
    }
    let mut final_ops: Option<Vec<String>> = None;
    for line in body.lines() {
        let line = line.trim();
        if line.is_empty() || line.starts_with("//") {
            continue;
        }
        if let Some(rest) = line.strip_prefix("let ") {
            let eq = rest.find('=').ok_or_else(|| format!("invalid let statement: {line}"))?;
            let mut parser = Parser::new(tokenize(rest[eq + 1..].trim())?, env.clone());
            let ops = parser.expr()?;
            if parser.peek().is_some() {
                return Err(format!("unconsumed expression tokens in: {line}"));
            }
            env.insert(rest[..eq].trim().to_string(), ops);
        } else if let Some(expr) = line.strip_prefix("return ") {
            let mut parser = Parser::new(tokenize(expr.trim())?, env.clone());
            let ops = parser.expr()?;
            if parser.peek().is_some() {
                return Err(format!("unconsumed return expression tokens in: {line}"));
            }
            final_ops = Some(ops);
        }
    }
    let mut ops = final_ops.ok_or_else(|| "no return statement in EXEC-GATE subset".to_string())?;
    ops.push("Halt".to_string());
    simulate(&ops, expected)?;
    let mut text = format!("# contract: {stem}\n# expected: {expected}\n");
    for op in &ops {
        text.push_str(op);
        text.push('\n');
    }
    Ok(text)
}
