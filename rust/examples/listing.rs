//! Prints the finished machine of a script, for a person to read: `cargo run --example listing`, or with a tree file in hexadecimal as its word.

use sezkibalo::*;

fn local(name: &str) -> Expr {
    Expr::Ident(Ident::local(name))
}

fn number(thousandths: i64) -> Expr {
    Expr::Number(Number(thousandths))
}

/// `if x>10 then :out="high" goto 1 end x*=2` and `x=y/3 goto 1`
fn sample() -> Script {
    let above = Expr::Binop(local("x").into(), Binop::Gt, number(10_000).into());
    let out = Statement::Assign(Ident::global("out"), None, Expr::String("high".into()));
    let then = vec![out, Statement::Goto(number(1_000))];
    let doubled = Statement::Assign(Ident::local("x"), Some(AssignOp::Mul), number(2_000));
    let third = Expr::Binop(local("y").into(), Binop::Div, number(3_000).into());
    let first = vec![Statement::Ite(above, then, vec![]), doubled];
    let second = vec![Statement::Assign(Ident::local("x"), None, third), Statement::Goto(number(1_000))];
    Script { lines: vec![Line { stmts: first }, Line { stmts: second }] }
}

fn of_hex(text: &str) -> Option<Vec<u8>> {
    let digits: Option<Vec<u8>> = text.chars().map(|c| Some(c.to_digit(16)? as u8)).collect();
    let digits = digits.filter(|digits| digits.len() % 2 == 0)?;
    Some(digits.chunks(2).map(|pair| 16 * pair[0] + pair[1]).collect())
}

/// Where a section may lead.
fn targets(section: SectionCode) -> Vec<Section> {
    let next = match section.success {
        Success::Section(next) => Some(next),
        Success::Line(_) | Success::Unfixed => None,
    };
    section.instructions().flatten().filter_map(|code| code.target()).chain(next).collect()
}

/// A machine, and of each section the line that it belongs to, as the sections that lead to it do; none behind a goto.
struct Listing {
    machine: Machine,
    lines: Vec<Option<usize>>,
}

impl Listing {
    fn of(machine: Machine) -> Self {
        let mut lines: Vec<Option<usize>> = machine.sections().map(|_| None).collect();
        for line in 0..machine.lines() {
            let mut open = vec![Section(line as u16)];
            while let Some(section) = open.pop() {
                let i = usize::from(section.0);
                if lines[i].is_none() && (i == line || i >= machine.lines()) {
                    lines[i] = Some(line);
                    open.extend(machine.section(section).map(targets).unwrap_or_default());
                }
            }
        }
        Listing { machine, lines }
    }

    fn place(&self, section: Section) -> String {
        match self.lines[usize::from(section.0)] {
            Some(line) => format!("{section}, line {}", line + 1),
            None => format!("{section}, not linked"),
        }
    }

    fn instruction(&self, instruction: Instruction) -> String {
        match instruction {
            Instruction::JumpSectionIf(section, n) => format!("JumpSectionIf {n} -> {}", self.place(section)),
            Instruction::JumpIfError(section) => format!("JumpIfError -> {}", self.place(section)),
            other => other.to_string(),
        }
    }

    fn success(&self, success: Success) -> String {
        match success {
            Success::Section(section) => self.place(section),
            Success::Line(n) => format!("the line of {n}"),
            Success::Unfixed => "nowhere".into(),
        }
    }

    fn print(&self) {
        for section in self.machine.sections() {
            println!("\n{}", self.place(section.number));
            for code in section.instructions() {
                println!("    {}", code.map_or("no instruction".into(), |code| self.instruction(code)));
            }
            println!("    -> {}", self.success(section.success));
        }
    }
}

fn thousandths(n: i64) -> String {
    let sign = if n < 0 { "-" } else { "" };
    format!("{sign}{}.{:03}", n.unsigned_abs() / 1000, n.unsigned_abs() % 1000)
}

fn print_registers(machine: &Machine, names: &[Ident]) {
    for (i, &n) in machine.numbers().iter().enumerate() {
        println!("n{i} = {}", thousandths(n));
    }
    for i in 0..machine.strings() {
        println!("s{i} = {:?}", String::from_utf8_lossy(machine.text(StrReg(i as u16))));
    }
    for (i, name) in names.iter().enumerate() {
        if let Some(register) = machine.name(i) {
            println!("{register} is {}{}", if name.global { ":" } else { "" }, name.name);
        }
    }
    println!("{} values", machine.values());
}

fn main() -> Result<(), Error> {
    let packed = match std::env::args().nth(1) {
        None => sample().pack()?,
        Some(hex) => Packed { bytes: of_hex(&hex).expect("a file in hexadecimal"), names: vec![] },
    };
    let all = CodegenOptions { protect_locals: true, protect_globals: true };
    let machine = Machine::finish(&packed.bytes, all)?;
    print_registers(&machine, &packed.names);
    Listing::of(machine).print();
    Ok(())
}
