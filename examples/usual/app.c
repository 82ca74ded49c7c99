#include "os.h"
#define SIZE 4
DeclareTask(Control);
DeclareTask(Log);
DeclareResource(Buf);

static uint16_t samples[SIZE];
static uint8_t count;
static uint8_t logged;
static uint16_t last;

static void store(uint16_t v) {
  if (count < SIZE) {
    samples[count] = v;
    count = count + 1;
  }
}

ISR(Adc) {
  uint16_t v = oschk_input();
  GetResource(Buf);
  store(v);
  ReleaseResource(Buf);
  ActivateTask(Control);
}

TASK(Init) {
  count = 0;
  logged = 0;
  ActivateTask(Control);
  TerminateTask();
}

TASK(Control) {
  uint8_t n = 0;
  GetResource(Buf);
  n = count;
  if (n > 0) {
    last = samples[n - 1];
    count = n - 1;
  }
  assert(count < SIZE);
  ReleaseResource(Buf);
  ActivateTask(Log);
  TerminateTask();
}

TASK(Log) {
  logged = logged + 1;
  assert(logged <= 3);
  TerminateTask();
}
