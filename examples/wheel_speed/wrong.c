#include "os.h"

DeclareTask(Speed);

static volatile uint16_t pulses;  // edges since Speed looked last
static uint32_t travelled;        // in teeth of the wheel
static uint32_t edges;            // for the check alone: how many edges there were

// An edge of the tooth wheel.
ISR(Edge) {
  pulses = pulses + 1;
  edges = edges + 1;
}

// Every 10 ms.
TASK(Speed) {
  uint16_t count = pulses;
  pulses = 0;
  SuspendOSInterrupts();
  travelled = travelled + count;
  assert(travelled + pulses == edges);
  ResumeOSInterrupts();
  TerminateTask();
}
