// Runs the design under Verilator for eight cycles and dumps it:
//   verilator --cc --exe --build --trace handshake.v handshake_main.cpp && obj_dir/Vhandshake
#include "Vhandshake.h"
#include "verilated.h"
#include "verilated_vcd_c.h"

int main(int argc, char** argv) {
    VerilatedContext context;
    context.commandArgs(argc, argv);
    context.traceEverOn(true);
    Vhandshake design{&context};
    VerilatedVcdC dump;
    design.trace(&dump, 99);
    dump.open("handshake_verilator.vcd");
    design.clk = 0;
    design.req = 0;
    for (int half = 0; half < 16; half++) {
        context.timeInc(5);
        design.clk = !design.clk;
        if (!design.clk) design.req = half == 1;
        design.eval();
        dump.dump(context.time());
    }
    dump.close();
    return 0;
}
