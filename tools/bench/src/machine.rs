//! The machine that the times were taken on.

use std::process::Command;

fn processor() -> Option<String> {
    let text = std::fs::read_to_string("/proc/cpuinfo").ok()?;
    let line = text.lines().find(|line| line.starts_with("model name"))?;
    Some(line.split_once(':')?.1.trim().to_string())
}

fn compiler() -> Option<String> {
    let output = Command::new("rustc").arg("--version").output().ok()?;
    Some(String::from_utf8(output.stdout).ok()?.trim().to_string())
}

pub fn print() {
    let known = |text: Option<String>| text.unwrap_or("unknown".to_string());
    println!("processor: {}; compiler: {}", known(processor()), known(compiler()));
}
