// Modes and MAC by BouncyCastle: reads lines `MODE CIPHER KEY START TEXT TAGKEY`, where MODE is ctr, cbc or mac and `-` stands for
// no bytes, and prints for each the MAC, or the sealed text and its MAC under the other cipher. Opens what it sealed as well, and
// stops if that is not TEXT.
//
//     java -cp /usr/share/java/bcprov.jar tools/ModeVectors.java < LINES
import java.io.BufferedReader;
import java.io.InputStreamReader;
import java.util.Arrays;
import org.bouncycastle.crypto.BlockCipher;
import org.bouncycastle.crypto.CipherParameters;
import org.bouncycastle.crypto.StreamCipher;
import org.bouncycastle.crypto.engines.GOST28147Engine;
import org.bouncycastle.crypto.engines.GOST3412_2015Engine;
import org.bouncycastle.crypto.macs.CMac;
import org.bouncycastle.crypto.modes.G3413CBCBlockCipher;
import org.bouncycastle.crypto.modes.G3413CTRBlockCipher;
import org.bouncycastle.crypto.modes.SICBlockCipher;
import org.bouncycastle.crypto.params.KeyParameter;
import org.bouncycastle.crypto.params.ParametersWithIV;
import org.bouncycastle.crypto.params.ParametersWithSBox;
import org.bouncycastle.util.encoders.Hex;

public class ModeVectors {
    static byte[] reversed(byte[] bytes) {
        byte[] out = new byte[bytes.length];
        for (int i = 0; i < bytes.length; i++) {
            out[i] = bytes[bytes.length - 1 - i];
        }
        return out;
    }

    // The engine is of the older cipher, which numbers its bytes the other way:
    // each word of the key and every block are turned about.
    static class Magma implements BlockCipher {
        private final GOST28147Engine engine = new GOST28147Engine();

        public void init(boolean forward, CipherParameters parameters) {
            byte[] key = ((KeyParameter) parameters).getKey();
            byte[] words = new byte[32];
            for (int i = 0; i < 32; i += 4) {
                System.arraycopy(reversed(Arrays.copyOfRange(key, i, i + 4)), 0, words, i, 4);
            }
            engine.init(forward, new ParametersWithSBox(new KeyParameter(words), GOST28147Engine.getSBox("Param-Z")));
        }

        public String getAlgorithmName() {
            return "Magma";
        }

        public int getBlockSize() {
            return 8;
        }

        public int processBlock(byte[] in, int inAt, byte[] out, int outAt) {
            byte[] block = reversed(Arrays.copyOfRange(in, inAt, inAt + 8));
            byte[] after = new byte[8];
            engine.processBlock(block, 0, after, 0);
            System.arraycopy(reversed(after), 0, out, outAt, 8);
            return 8;
        }

        public void reset() {
            engine.reset();
        }
    }

    static BlockCipher cipher(String name) {
        switch (name) {
            case "kuz":
                return new GOST3412_2015Engine();
            case "magma":
                return new Magma();
            default:
                throw new IllegalArgumentException(name);
        }
    }

    static byte[] stream(StreamCipher mode, byte[] key, byte[] start, byte[] text) {
        mode.init(true, new ParametersWithIV(new KeyParameter(key), start));
        byte[] out = new byte[text.length];
        mode.processBytes(text, 0, text.length, out, 0);
        return out;
    }

    // The counter mode for any block cipher, whose counter begins as START and zeros. G3413CTRBlockCipher of BouncyCastle 1.72
    // counts in the last byte alone, so that its keystream comes again after 256 blocks: it is asked for shorter texts only.
    static byte[] ctr(String name, byte[] key, byte[] start, byte[] text) {
        byte[] out = stream(new SICBlockCipher(cipher(name)), key, start, text);
        boolean shorter = text.length <= 256 * cipher(name).getBlockSize();
        if (shorter && !Arrays.equals(out, stream(new G3413CTRBlockCipher(cipher(name)), key, start, text))) {
            throw new IllegalStateException("two counter modes differ: " + Hex.toHexString(text));
        }
        return out;
    }

    // whole blocks
    static byte[] cbc(String name, boolean seals, byte[] key, byte[] start, byte[] text) {
        G3413CBCBlockCipher mode = new G3413CBCBlockCipher(cipher(name));
        mode.init(seals, new ParametersWithIV(new KeyParameter(key), start));
        int n = mode.getBlockSize();
        byte[] out = new byte[text.length];
        for (int i = 0; i < text.length; i += n) {
            mode.processBlock(text, i, out, i);
        }
        return out;
    }

    // procedure 2
    static byte[] filled(int n, byte[] text) {
        byte[] out = Arrays.copyOf(text, (text.length / n + 1) * n);
        out[text.length] = (byte) 0x80;
        return out;
    }

    static byte[] mac(String name, byte[] key, byte[] text) {
        BlockCipher engine = cipher(name);
        CMac mac = new CMac(engine, 8 * engine.getBlockSize());
        mac.init(new KeyParameter(key));
        mac.update(text, 0, text.length);
        byte[] out = new byte[mac.getMacSize()];
        mac.doFinal(out, 0);
        return out;
    }

    static byte[] sealed(String mode, String name, byte[] key, byte[] start, byte[] text) {
        byte[] whole = mode.equals("ctr") ? text : filled(cipher(name).getBlockSize(), text);
        byte[] out = mode.equals("ctr") ? ctr(name, key, start, whole) : cbc(name, true, key, start, whole);
        byte[] back = mode.equals("ctr") ? ctr(name, key, start, out) : cbc(name, false, key, start, out);
        if (!Arrays.equals(back, whole)) {
            throw new IllegalStateException("opens to another text: " + Hex.toHexString(text));
        }
        return out;
    }

    static byte[] bytes(String word) {
        return word.equals("-") ? new byte[0] : Hex.decode(word);
    }

    static String word(byte[] bytes) {
        return bytes.length == 0 ? "-" : Hex.toHexString(bytes);
    }

    static String answer(String[] words) {
        String mode = words[0];
        String name = words[1];
        byte[] key = bytes(words[2]);
        byte[] text = bytes(words[4]);
        if (mode.equals("mac")) {
            return word(mac(name, key, text));
        }
        byte[] out = sealed(mode, name, key, bytes(words[3]), text);
        return word(out) + " " + word(mac(name.equals("kuz") ? "magma" : "kuz", bytes(words[5]), out));
    }

    public static void main(String[] args) throws Exception {
        BufferedReader lines = new BufferedReader(new InputStreamReader(System.in));
        StringBuilder out = new StringBuilder();
        String line;
        while ((line = lines.readLine()) != null) {
            out.append(answer(line.split(" "))).append('\n');
        }
        System.out.print(out);
    }
}
