"""The program's print, put together from what a sheet gives."""

from lindypo import Refusal, Sheet


def printed(text):
    try:
        sheet = Sheet.read(text)
        run = sheet.run()
    except Refusal as refusal:
        return f"refusal place\n{refusal.number} {refusal.place}\n"
    lines = ["label name order state number steps\n"]
    order = run.plan.order.name.lower()
    for label, (state, number, steps) in zip(run.plan.labels, run.values.values()):
        name = sheet.name(label)
        lines.append(f"{label} {name} {order} {state.value} {number or 0} {steps}\n")
    return "".join(lines)
