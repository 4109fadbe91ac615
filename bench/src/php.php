<?php
// PHP's side of the benchmark, started by php.rs as `php -n php.php`: PHP's own settings whatever php.ini says, so
// without opcache, with serialize_precision -1 and memory_limit 128M.
//
// A message is its length in bytes, a line feed and so many bytes. The first one sent is PHP's version. A request is
// serialized: an array with names prepares a call, which is made once and its plan sent back; a list, the nanoseconds of
// a batch and of a round, asks for a round, whose time of one call is sent back.

// As a program that owns such plans would have it; an unknown class costs PHP more.
#[AllowDynamicProperties]
final class AirPlan
{
}

function send(string $message): void
{
    fwrite(STDOUT, strlen($message) . "\n" . $message);
}

/** The plan with a pair put in at a place of the array that the keys lead to. */
function inserted(string $source, array $path, int $place, int|string $key, mixed $value): string
{
    $plan = unserialize($source);
    // By reference, so that the array is changed in the plan.
    $array = &$plan;
    foreach ($path as $step) {
        if (is_object($array)) {
            $array = &$array->$step;
        } else {
            $array = &$array[$step];
        }
    }
    // Unlike array_splice both keep the keys, and days that are shared stay so.
    $array = array_slice($array, 0, $place, true) + [$key => $value] + array_slice($array, $place, null, true);
    return serialize($plan);
}

/** What is timed; for inserting, key and value are PHP's own before. */
function prepared(array $asked): Closure
{
    $source = $asked['source'];
    if ($asked['service'] === 'ton_read') {
        return fn () => unserialize($source);
    }
    if ($asked['service'] === 'ton_canonicalize') {
        return fn () => serialize(unserialize($source));
    }
    [$path, $key, $value] = array_map('unserialize', [$asked['path'], $asked['key'], $asked['value']]);
    $place = $asked['place'];
    return fn () => inserted($source, $path, $place, $key, $value);
}

/** Nanoseconds of so many calls. Freeing what they made is part of it. */
function batch(Closure $call, int $calls): int
{
    $start = hrtime(true);
    for ($i = 0; $i < $calls; $i++) {
        $call();
    }
    return hrtime(true) - $start;
}

/** Nanoseconds a call in the fastest batch, as bench.rs has it for the others. */
function round_of(Closure $call, int $batch, int $round): float
{
    $start = hrtime(true);
    $calls = 1;
    while (batch($call, $calls) < $batch) {
        $calls *= 2;
    }
    $fastest = batch($call, $calls);
    while (hrtime(true) - $start < $round) {
        $fastest = min($fastest, batch($call, $calls));
    }
    return $fastest / $calls;
}

send(PHP_VERSION);
while (($length = fgets(STDIN)) !== false) {
    $request = unserialize(stream_get_contents(STDIN, (int) $length));
    if (array_is_list($request)) {
        send((string) round_of($call, ...$request));
    } else {
        $call = prepared($request);
        $made = $call();
        send(is_string($made) ? $made : serialize($made));
        // Else each round would have it in memory too.
        unset($made);
    }
}
