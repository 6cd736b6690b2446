//! The Rust alone on a trace in hex, with comments in lines that start with #: what it does at each event, and where it
//! ends.
use std::io::Read;
use summerset::drive::Driver;
use summerset::plain::Event;
use summerset::show;
use summerset::trace::Reader;

fn bytes_of(hex: &str) -> Result<Vec<u8>, String> {
    let lines = hex.lines().filter(|line| !line.starts_with('#'));
    let words = lines.flat_map(|line| line.split([' ', ','])).filter(|w| !w.is_empty());
    words.map(|w| u8::from_str_radix(w, 16).map_err(|_| format!("{w} is no byte in hex"))).collect()
}

fn step(driver: &mut Driver, number: usize, event: &Event) {
    let stepped = driver.step(event);
    println!("{number} {}{}", show::answer(stepped.answer), show::slots(&stepped.submitted));
    for record in &stepped.output {
        println!("  {}", show::output(record));
    }
    for record in &stepped.put_back {
        println!("  put back: {}", show::output(record));
    }
}

pub fn run() -> Result<bool, String> {
    let mut hex = String::new();
    std::io::stdin().read_to_string(&mut hex).map_err(|e| format!("cannot read standard input: {e}"))?;
    let trace = bytes_of(&hex)?;
    let mut reader = Reader::new(&trace);
    let config = match reader.config() {
        Ok(config) => config,
        Err(number) => {
            println!("0 refused {number}");
            return Ok(true);
        }
    };
    let mut driver = Driver::new(config);
    for number in 1.. {
        if reader.is_at_end() {
            break;
        }
        match reader.event(config.n) {
            Ok(event) => step(&mut driver, number, &event),
            Err(refusal) => {
                println!("{number} refused {refusal}");
                break;
            }
        }
    }
    let table = driver.table();
    print!("{}", show::slots_of(&table));
    println!("{}", show::bars(&table));
    Ok(true)
}
