//! The parts that calls have in common.

use crate::wire::*;

/// Defines how to reach a part, to read it and to change it, in the calls that have it.
macro_rules! part {
    ($(#[$doc:meta])* $get:ident, $get_mut:ident: $kind:ty { $($call:ident: $($field:ident).+),* $(,)? }) => {
        impl Call {
            $(#[$doc])*
            pub fn $get(&self) -> Option<&$kind> {
                match self {
                    $(Call::$call(c) => Some(&c.$($field).+),)*
                    _ => None,
                }
            }

            $(#[$doc])*
            pub fn $get_mut(&mut self) -> Option<&mut $kind> {
                match self {
                    $(Call::$call(c) => Some(&mut c.$($field).+),)*
                    _ => None,
                }
            }
        }
    };
}

part! {
    log, log_mut: Log {
        RemapReset: log,
        DedupMux: log,
        DedupDff: log,
        BitwiseMux: log,
        TransparencyMux: log,
        UnmapReadDff: log,
        UnmapReadReset: log,
        EmulateReadBeforeWrite: log,
        Swizzle: request.log,
        LowerFallback: log,
    }
}

part! {
    memory, memory_mut: Memory {
        TransparencyMux: memory,
        ExtractReadPorts: memory,
        UnmapReadDff: memory,
        UnmapReadReset: memory,
        EmulateReadBeforeWrite: memory,
        MakeDataSwizzle: memory,
        SwizzleDepths: memory,
        SwizzleMuxBits: memory,
        Swizzle: request.memory,
        CanLowerFallback: memory,
        LowerFallback: memory,
        LayOut: memory,
    }
}

part! {
    output, output_mut: Value {
        ExtractReadPorts: output,
        UnmapReadDff: output,
        UnmapReadReset: output,
        Swizzle: request.output,
        LowerFallback: output,
    }
}

part! {
    plan, plan_mut: Plan {
        SwizzleDepths: plan,
        SwizzleMuxBits: plan,
        Swizzle: request.plan,
        LayOut: plan,
    }
}

part! {
    /// The read port that a call names.
    port, port_mut: u32 {
        TransparencyMux: read_port,
        UnmapReadDff: port,
        UnmapReadReset: port,
    }
}

part! {
    /// The list of read ports that a call names.
    ports, ports_mut: Vec<u32> {
        ExtractReadPorts: ports,
        SwizzleMuxBits: ports,
    }
}

part! {
    /// A room that counts the elements of the answered list.
    result_room, result_room_mut: u32 {
        ConstNot: room,
        ConstAnd: room,
        ConstOr: room,
        MakeDataSwizzle: room,
        SwizzleDepths: room,
    }
}

impl Call {
    /// The logs of a call, or of the steps of a history.
    pub fn logs(&self) -> Vec<&Log> {
        match self {
            Call::History(history) => history.steps.iter().filter_map(Step::log).collect(),
            _ => self.log().into_iter().collect(),
        }
    }
}

impl Step {
    fn log(&self) -> Option<&Log> {
        match self {
            Step::Swizzle(request) => Some(&request.log),
            Step::Fallback(request) => Some(&request.log),
            Step::Patch(_) => None,
        }
    }
}
